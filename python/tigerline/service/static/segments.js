/*
 * Draws street segments on a Leaflet map: lines by class, names along the lines, and what is under the pointer.
 *
 *   const segments = new SegmentMap(map, { onPoint, onChoose, styles, styleOf });
 *   segments.show(selected, around);    // GeoJSON features; those around the selection are drawn in pale colors
 *   segments.highlight(feature);        // or null
 *   map.fitBounds(boundsOf(features));
 *
 * `onPoint` and `onChoose` are called with the feature under the pointer and with the one clicked at, or null, and the
 * position. `styles` are the rows of a legend from the bottom of the map to its top, like STYLES, and
 * `styleOf(feature)` is the place of a feature's row, by default that of its class. The properties of a feature are
 * those of the service, or some of them; `id` tells features apart.
 *
 *   legendOf(features, { styles, styleOf })   // [{ style, count }, ...], main roads first; swatch(style) draws a line
 *   nameOf(feature), describe(feature)        // a text, and an element with what is known of a feature
 *   addPlaces(map, places)                    // markers: [{ lat, lng, label, text }]; returns their layer
 *   addGraticule(map)                         // meridians and parallels, with their degrees at the edges
 *
 * Leaflet's script comes first: it defines L. Nothing is imported, so a page may contain this file. The texts of
 * features become text nodes, never markup.
 */

const { L } = window;

const INK = "#26241f", HALO = "#fdfcf8", PALE = "#d5cfc1", PALE_INK = "#8b867b", FOUND = "#c4006a";
const FONT = "'Liberation Sans', Arial, Helvetica, sans-serif";
const MOST_NAMES = 250;
// Lengths are in pixels.
const REACH = 10; // from the pointer to a segment
const REPEAT = 420; // between two labels of one line
const CELL = 7; // of the squares that tell whether labels overlap
const THINNEST_CASED = 2;

// From the bottom to the top. Roads differ by brightness and width as well as by hue, so that color-blind readers can
// tell them apart. `far` is the color of a line that is too thin for a casing, `ink` that of its name.
export const STYLES = [
    {
        label: "Intermittent stream", prefixes: ["H02", "H12", "H22"],
        color: "#5b9fc9", width: 1.2, dashes: [6, 3], pale: "#bcd9e8", ink: "#1d5c86",
    },
    { label: "Water", prefixes: ["H"], color: "#5b9fc9", width: 2.2, pale: "#bcd9e8", ink: "#1d5c86" },
    { label: "Landmark", prefixes: ["D"], color: "#6f9e5a", width: 1.3, pale: "#c9dbbe", ink: "#3f6a2c" },
    {
        label: "Boundary", prefixes: ["F"],
        color: "#8a6a9c", width: 1.2, dashes: [7, 3, 1.5, 3], pale: "#d6c9de", ink: "#5d4370",
    },
    { label: "Other feature", prefixes: [""], color: "#8b7355", width: 1.2, dashes: [2, 2] },
    {
        label: "Railroad", prefixes: ["B"],
        color: HALO, width: 1.2, casing: "#3a3a3a", far: "#6b6860", dashes: [6, 6], pale: "#cfcbc0", ink: "#3a3a3a",
    },
    { label: "Trail or alley", prefixes: ["A5", "A7"], color: "#8b7355", width: 1.2, dashes: [4, 2] },
    { label: "Local road", prefixes: ["A"], color: "#ffffff", width: 2.6, casing: "#857f75", far: "#8f897e" },
    { label: "Ramp", prefixes: ["A63"], color: "#f3d3a2", width: 2.2, casing: "#8f6a2c", far: "#b58a48" },
    {
        label: "State or county road", prefixes: ["A3"],
        color: "#f7cf5c", width: 3.6, casing: "#8a6412", far: "#c9962a", pale: "#d0c7b0",
    },
    {
        label: "US highway", prefixes: ["A2"],
        color: "#e2762b", width: 4.4, casing: "#7a3608", far: "#cf6018", pale: "#d3c2ab", isStrong: true,
    },
    {
        label: "Interstate", prefixes: ["A1"],
        color: "#34528f", width: 5.4, casing: "#182a52", far: "#2b4886", pale: "#bcc1d0", ink: "#182a52", isStrong: true,
    },
];

const PLACES = new Map(STYLES.flatMap((style, place) => style.prefixes.map(prefix => [prefix, place])));

/* Returns the place in STYLES of the longest prefix of a feature's class. */
export function styleOfClass({ properties }) {
    const cfcc = properties.CFCC || "";
    return [3, 2, 1, 0].map(length => PLACES.get(cfcc.slice(0, length))).find(place => place !== undefined);
}

/* Returns the name of a feature with its directions and type, or an empty text. */
export function nameOf({ properties }) {
    const parts = ["FEDIRP", "FENAME", "FETYPE", "FEDIRS"].map(column => properties[column]);
    return parts.filter(Boolean).join(" ");
}

/* Returns a new element with attributes and with texts or elements in it. */
export function element(name, attributes = {}, ...children) {
    const made = document.createElement(name);
    for (const [key, value] of Object.entries(attributes)) made.setAttribute(key, value);
    made.append(...children);
    return made;
}

/* Returns the house numbers and the ZIP Code of a side, "L" or "R". */
function sideOf(properties, letter) {
    const from = properties[`FRADD${letter}`], to = properties[`TOADD${letter}`], zip = properties[`ZIP${letter}`];
    return [from || to ? `${from || "?"}\u2013${to || "?"}` : "", zip ? `ZIP ${zip}` : ""].filter(Boolean).join(", ");
}

/* Returns an element with the name, the class, the house numbers and the ZIP Codes of a feature. */
export function describe(feature) {
    const { properties } = feature;
    const label = STYLES[styleOfClass(feature)].label.toLowerCase();
    const rows = [
        ["Class", `${properties.CFCC || "none"}, ${label}`],
        ["Left", sideOf(properties, "L")],
        ["Right", sideOf(properties, "R")],
    ].filter(([, text]) => text);
    const parts = rows.flatMap(([term, text]) => [element("dt", {}, term), element("dd", {}, text)]);
    const name = element("strong", {}, nameOf(feature) || "No name");
    return element("div", { class: "segment" }, name, element("dl", {}, ...parts));
}

function extremes(numbers) {
    const widen = ([least, most], number) => [Math.min(least, number), Math.max(most, number)];
    return numbers.reduce(widen, [Infinity, -Infinity]);
}

/* Returns the bounds of features, across the 180th meridian if they are narrower there. Without points it is null. */
export function boundsOf(features) {
    const points = features.flatMap(({ geometry }) => geometry ? geometry.coordinates : []);
    if (!points.length) return null;
    const plain = extremes(points.map(([longitude]) => longitude));
    const shifted = extremes(points.map(([longitude]) => longitude > 0 ? longitude - 360 : longitude));
    const [west, east] = shifted[1] - shifted[0] < plain[1] - plain[0] ? shifted : plain;
    const [south, north] = extremes(points.map(([, latitude]) => latitude));
    return L.latLngBounds([south, west], [north, east]);
}

/* A feature on the map: its points on the side of the 180th meridian that is nearer to a longitude. */
class Drawn {
    constructor(feature, longitude, place, isPale) {
        const turned = x => x + 360 * Math.round((longitude - x) / 360);
        Object.assign(this, { feature, place, isPale });
        this.line = feature.geometry.coordinates.map(([x, y]) => [y, turned(x)]);
        [this.south, this.north] = extremes(this.line.map(([latitude]) => latitude));
        [this.west, this.east] = extremes(this.line.map(([, x]) => x));
    }

    meets(bounds) {
        return this.west <= bounds.getEast() && this.east >= bounds.getWest()
            && this.south <= bounds.getNorth() && this.north >= bounds.getSouth();
    }
}

/* Returns the factor of the width of lines: 1 for a town, less for a state. */
function thickness(zoom) {
    return Math.min(Math.max(2 ** ((zoom - 14) * 0.42), 0.32), 4.5);
}

/* The lines of a style: one path, or a casing with another path on it, which a thin line lacks. */
class Paths {
    constructor(style, isPale, lines) {
        const path = options => L.polyline(lines, { interactive: false, smoothFactor: 0.7, ...options });
        const dashes = style.dashes && !isPale ? { dashArray: style.dashes.join(" "), lineCap: "butt" } : {};
        Object.assign(this, { style, isPale });
        this.hasCasing = Boolean(style.casing) && !isPale;
        this.lower = path(this.hasCasing ? {} : dashes);
        this.upper = this.hasCasing ? path({ color: style.color, ...dashes }) : null;
    }

    resize(zoom) {
        const { color, casing, far, dashes, width, pale = PALE } = this.style;
        const weight = width * thickness(zoom);
        if (!this.hasCasing) {
            const [stroke, scale] = this.isPale ? [pale, 0.62] : [color, 1];
            this.lower.setStyle({ color: stroke, weight: Math.max(weight * scale, 0.8) });
            return;
        }
        const isThin = weight < THINNEST_CASED && !dashes;
        this.lower.setStyle({ color: isThin ? far || color : casing, weight: isThin ? Math.max(weight, 1) : weight + 1.6 });
        this.upper.setStyle({ weight, opacity: isThin ? 0 : 1 });
    }
}

const keyOf = ([latitude, longitude]) => `${latitude},${longitude}`;

/* Joins lines that follow each other, in either direction, up to a place where more than two meet. */
function chained(lines) {
    const ends = new Map(), used = new Set();
    for (const line of lines)
        for (const key of [keyOf(line[0]), keyOf(line[line.length - 1])]) ends.set(key, [...(ends.get(key) || []), line]);
    const next = key => ends.get(key).length === 2 && ends.get(key).find(line => !used.has(line));
    const follow = chain => {
        let key = keyOf(chain[chain.length - 1]);
        for (let line = next(key); line; line = next(key)) {
            used.add(line);
            chain.push(...(keyOf(line[0]) === key ? line : [...line].reverse()).slice(1));
            key = keyOf(chain[chain.length - 1]);
        }
        return chain;
    };
    return lines.filter(line => !used.has(line)).flatMap(line => {
        if (used.has(line)) return [];
        used.add(line);
        return [follow(follow([...line]).reverse())];
    });
}

/* Returns the lines of each name, the selected ones and main roads first. */
function namedChains(all) {
    const groups = new Map();
    for (const { feature, line, place, isPale } of all) {
        const name = nameOf(feature), key = `${isPale} ${place} ${name}`;
        if (!groups.has(key)) groups.set(key, { name, place, isPale, lines: [] });
        groups.get(key).lines.push(line);
    }
    return [...groups.values()]
        .filter(({ name }) => name)
        .flatMap(({ lines, ...group }) => chained(lines).map(line => ({ ...group, line, bounds: L.latLngBounds(line) })))
        .sort((one, other) => one.isPale - other.isPale || other.place - one.place);
}

/* The squares of the screen that labels have taken. */
class Taken {
    constructor(size) {
        this.size = size;
        this.cells = new Set();
        this.labels = [];
    }

    /* Takes the place of a label if it is on the screen, free, and not near to one of the same name. */
    take(name, { x, y, angle }, width, height) {
        const isNear = label => label.name === name && Math.hypot(x - label.x, y - label.y) < REPEAT / 2;
        if (this.labels.some(isNear)) return false;
        const cells = [];
        for (const cell of this.cellsOf(x, y, angle, width, height)) {
            if (cell === null || this.cells.has(cell)) return false;
            cells.push(cell);
        }
        this.labels.push({ name, x, y });
        cells.forEach(cell => this.cells.add(cell));
        return true;
    }

    /* Yields the squares that a label touches, and null if it is beyond the edge. */
    * cellsOf(x, y, angle, width, height) {
        const steps = Math.ceil(width / CELL) + 2;
        for (let at = 0; at <= 2 * steps + 1; at++) {
            const along = (Math.floor(at / 2) / steps - 0.5) * (width + CELL), up = at % 2 ? height / 2 : -height / 2;
            const cellX = x + along * Math.cos(angle) - up * Math.sin(angle);
            const cellY = y + along * Math.sin(angle) + up * Math.cos(angle);
            const isInside = cellX > 2 && cellY > 2 && cellX < this.size.x - 2 && cellY < this.size.y - 2;
            yield isInside ? Math.floor(cellX / CELL) + 10000 * Math.floor(cellY / CELL) : null;
        }
    }
}

/* A line of pixels, and the point at each length along it. */
class Ruler {
    constructor(points) {
        this.points = points;
        this.lengths = [0];
        for (let at = 1; at < points.length; at++)
            this.lengths.push(this.lengths[at - 1] + points[at].distanceTo(points[at - 1]));
        this.total = this.lengths[this.lengths.length - 1];
    }

    at(length) {
        const found = this.lengths.findIndex(reached => reached >= length);
        const piece = Math.max(found < 0 ? this.points.length - 1 : found, 1);
        const from = this.points[piece - 1], to = this.points[piece];
        const part = (length - this.lengths[piece - 1]) / (this.lengths[piece] - this.lengths[piece - 1] || 1);
        return from.add(to.subtract(from).multiplyBy(part));
    }

    /* Yields the places for a text of a width: from the middle outward, where the line is nearly straight. */
    * places(width) {
        const step = Math.max(Math.min(width / 2, 40), 12), count = Math.floor((this.total - width) / 2 / step);
        for (let turn = 0; turn <= 2 * count; turn++) {
            const middle = this.total / 2 + (turn % 2 ? 1 : -1) * Math.ceil(turn / 2) * step;
            const [first, center, last] = [-1, 0, 1].map(side => this.at(middle + side * width / 2));
            const chord = last.subtract(first), between = first.add(last).divideBy(2);
            if (Math.hypot(chord.x, chord.y) < width * 0.96 || center.distanceTo(between) > 4) continue;
            const { x, y } = center.add(between).divideBy(2);
            yield { x, y, middle, angle: Math.atan(chord.y / chord.x) || 0 };
        }
    }
}

/* The names along the lines, on a canvas above them. */
class Names extends L.Layer {
    constructor(styles) {
        super();
        this.styles = styles;
        this.chains = [];
    }

    onAdd(map) {
        const pane = map.createPane("names");
        Object.assign(pane.style, { zIndex: 450, pointerEvents: "none" });
        this.canvas = pane.appendChild(element("canvas", { "aria-hidden": "true" }));
        this.redraw();
    }

    getEvents() {
        return { moveend: this.redraw, resize: this.redraw, zoomstart: () => { this.canvas.hidden = true; } };
    }

    show(chains) {
        this.chains = chains;
        this.redraw();
    }

    redraw() {
        const size = this._map.getSize(), ratio = window.devicePixelRatio || 1, bounds = this._map.getBounds();
        L.DomUtil.setPosition(this.canvas, this._map.containerPointToLayerPoint([0, 0]));
        Object.assign(this.canvas, { width: size.x * ratio, height: size.y * ratio, hidden: false });
        Object.assign(this.canvas.style, { width: `${size.x}px`, height: `${size.y}px` });
        this.context = this.canvas.getContext("2d");
        this.context.scale(ratio, ratio);
        Object.assign(this.context, { textAlign: "center", textBaseline: "middle", lineJoin: "round", strokeStyle: HALO });
        this.taken = new Taken(size);
        this.chains.filter(chain => bounds.intersects(chain.bounds)).forEach(chain => this.drawAlong(chain));
        this.canvas.dataset.names = this.taken.labels.length;
    }

    /* Writes a name along a line, several times if it is long. */
    drawAlong({ name, place, isPale, line }) {
        const { isStrong, ink = INK } = this.styles[place];
        const height = (isStrong ? 12.5 : 11) * (this._map.getZoom() >= 17 ? 1.15 : 1);
        this.context.font = `${isStrong ? "bold " : ""}${height}px ${FONT}`;
        const width = this.context.measureText(name).width;
        const ruler = new Ruler(line.map(latlng => this._map.latLngToContainerPoint(latlng)));
        const used = [];
        for (const label of ruler.places(width + 6)) {
            if (this.taken.labels.length >= MOST_NAMES) return;
            if (used.some(middle => Math.abs(middle - label.middle) < REPEAT)) continue;
            if (!this.taken.take(name, label, width, height)) continue;
            used.push(label.middle);
            this.draw(name, label, isPale ? PALE_INK : ink);
        }
    }

    draw(name, { x, y, angle }, color) {
        this.context.save();
        this.context.translate(x, y);
        this.context.rotate(angle);
        Object.assign(this.context, { fillStyle: color, lineWidth: 3.4 });
        this.context.strokeText(name, 0, 0);
        this.context.fillText(name, 0, 0);
        this.context.restore();
    }
}

/* Returns the distance in pixels of a point from a line. */
function distanceTo(line, point) {
    const away = line.slice(1).map((to, at) => L.LineUtil.pointToSegmentDistance(point, line[at], to));
    return Math.min(...away);
}

/* The segments of a map. */
export class SegmentMap {
    constructor(map, { onPoint, onChoose, styles = STYLES, styleOf = styleOfClass } = {}) {
        Object.assign(this, { map, styles, styleOf, all: [], paths: [] });
        this.lines = L.layerGroup().addTo(map);
        this.names = new Names(styles).addTo(map);
        this.found = L.polyline([], { color: FOUND, weight: 5, opacity: 0.85, interactive: false }).addTo(map);
        map.on("zoomend", () => this.resize());
        if (onPoint) map.on("mousemove", ({ latlng }) => onPoint(this.nearest(latlng), latlng));
        if (onPoint) map.on("mouseout", () => onPoint(null, null));
        if (onChoose) map.on("click", ({ latlng }) => onChoose(this.nearest(latlng), latlng));
    }

    /* Draws features, and pale ones below them. */
    show(selected, around = []) {
        const longitude = this.map.getCenter().lng, known = new Set(selected.map(({ id }) => id));
        const take = (features, isPale) => features
            .filter(({ geometry }) => geometry)
            .map(feature => new Drawn(feature, longitude, this.styleOf(feature), isPale));
        const others = around.filter(({ id }) => id === undefined || !known.has(id));
        this.all = [...take(others, true), ...take(selected, false)];
        this.paths = [true, false].flatMap(isPale => this.pathsOf(this.all.filter(one => one.isPale === isPale), isPale));
        this.lines.clearLayers();
        this.resize();
        // The casings of all roads are below them, so that corners join.
        this.paths.forEach(({ lower }) => this.lines.addLayer(lower));
        this.paths.filter(({ upper }) => upper).forEach(({ upper }) => this.lines.addLayer(upper));
        this.found.bringToFront();
        this.names.show(namedChains(this.all));
    }

    pathsOf(some, isPale) {
        const groups = this.styles.map((style, place) => [style, some.filter(one => one.place === place)]);
        return groups
            .filter(([, group]) => group.length)
            .map(([style, group]) => new Paths(style, isPale, group.map(({ line }) => line)));
    }

    resize() {
        this.paths.forEach(paths => paths.resize(this.map.getZoom()));
    }

    /* Returns the feature that is nearest to a position, a selected one before a pale one, or null. */
    nearest(latlng) {
        const point = this.map.latLngToLayerPoint(latlng), reach = L.point(REACH, REACH);
        const corners = [point.subtract(reach), point.add(reach)].map(corner => this.map.layerPointToLatLng(corner));
        const bounds = L.latLngBounds(corners);
        const candidates = this.all
            .filter(one => one.meets(bounds))
            .map(one => [one, distanceTo(one.line.map(place => this.map.latLngToLayerPoint(place)), point)])
            .filter(([, away]) => away <= REACH)
            .sort(([one, away], [other, otherAway]) => one.isPale - other.isPale || away - otherAway);
        return candidates.length ? candidates[0][0].feature : null;
    }

    /* Marks a feature, or nothing. */
    highlight(feature) {
        const line = feature && feature.geometry ? new Drawn(feature, this.map.getCenter().lng, 0, false).line : [];
        this.found.setLatLngs(line).bringToFront();
    }
}

/* Returns the rows of a legend for features, from the top of the map to its bottom. */
export function legendOf(features, { styles = STYLES, styleOf = styleOfClass } = {}) {
    const places = features.map(styleOf);
    const rows = styles.map((style, place) => ({ style, count: places.filter(other => other === place).length }));
    return rows.filter(({ count }) => count).reverse();
}

function drawing(name, attributes) {
    const made = document.createElementNS("http://www.w3.org/2000/svg", name);
    for (const [key, value] of Object.entries(attributes)) made.setAttribute(key, value);
    return made;
}

/* Returns a picture of the line of a style. */
export function swatch({ color, casing, width, dashes = [] }) {
    const picture = drawing("svg", { viewBox: "0 0 30 10", width: 30, height: 10, "aria-hidden": true });
    const line = { d: "M0 5h30", fill: "none" };
    if (casing) picture.append(drawing("path", { ...line, stroke: casing, "stroke-width": width + 1.6 }));
    picture.append(drawing("path", { ...line, stroke: color, "stroke-width": width, "stroke-dasharray": dashes.join(" ") }));
    return picture;
}

/* Adds markers with labels such as numbers, which open a text. Returns their layer. */
export function addPlaces(map, places) {
    const markers = places.map(({ lat, lng, label = "", text = "" }) => {
        const html = element("span", {}, label);
        const icon = L.divIcon({ className: "place", html, iconSize: [26, 26], iconAnchor: [13, 30], popupAnchor: [0, -28] });
        const marker = L.marker([lat, lng], { icon, title: text, alt: text, riseOnHover: true });
        return text ? marker.bindPopup(element("div", {}, text)) : marker;
    });
    return L.layerGroup(markers).addTo(map);
}

// Of the graticule: from a second to 30 degrees, and the least distance of two lines.
const STEPS = [1 / 3600, 1 / 1800, 1 / 720, 1 / 360, 1 / 120, 1 / 60, 1 / 30, 1 / 12, 1 / 6, 1 / 2, 1, 2, 5, 10, 30];
const LEAST_STEP = 90;

/* Returns an angle in degrees, and in minutes and seconds if it has them. */
function degrees(value, letters) {
    const seconds = Math.round(Math.abs(value) * 3600), two = number => String(number).padStart(2, "0");
    const minutes = seconds % 3600 ? `${two(Math.floor(seconds / 60) % 60)}\u2032` : "";
    const rest = seconds % 60 ? `${two(seconds % 60)}\u2033` : "";
    return `${Math.floor(seconds / 3600)}\u00b0${minutes}${rest}${letters[value < 0 ? 1 : 0]}`;
}

/* Returns the multiples of a step between two numbers. */
function multiples(step, from, to) {
    const first = Math.ceil(from / step);
    return Array.from({ length: Math.max(Math.floor(to / step) - first + 1, 0) }, (_, at) => (first + at) * step);
}

/* Adds meridians and parallels, with their degrees at the upper and the right edge. Returns their layer. */
export function addGraticule(map) {
    const pane = "graticule", layer = L.layerGroup().addTo(map);
    map.createPane(pane).style.zIndex = 250;
    const style = { pane, renderer: L.canvas({ pane }), color: "#b9b2a2", weight: 0.8, opacity: 0.7, interactive: false };

    function add(line, labelled, text, kind) {
        const icon = L.divIcon({ className: `degrees ${kind}`, html: element("span", {}, text), iconSize: [0, 0] });
        layer.addLayer(L.polyline(line, style)).addLayer(L.marker(labelled, { icon, interactive: false, keyboard: false }));
    }

    function redraw() {
        const bounds = map.getBounds(), [west, east] = [bounds.getWest(), bounds.getEast()];
        const [south, north] = [Math.max(bounds.getSouth(), -85), Math.min(bounds.getNorth(), 85)];
        const least = (east - west) * LEAST_STEP / map.getSize().x, step = STEPS.find(one => one >= least) || 30;
        layer.clearLayers();
        for (const at of multiples(step, west, east))
            add([[south, at], [north, at]], [north, at], degrees(L.latLng(0, at).wrap().lng, "EW"), "meridian");
        for (const at of multiples(step, south, north))
            add([[at, west], [at, east]], [at, east], degrees(at, "NS"), "parallel");
    }

    map.on("moveend resize", redraw);
    redraw();
    return layer;
}
