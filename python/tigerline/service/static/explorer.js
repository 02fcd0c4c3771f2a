/*
 * The explorer: a page of segments with a map.
 *
 * The server makes every page, with its table, its counts and its refusals, also for browsers without scripts. This script
 * fetches the page of another filter and takes over its regions (data-live), and draws features that it fetches for what
 * is in view. The address has everything: the filter, the page and the addresses as parameters, and the view as
 * #map=ZOOM/LATITUDE/LONGITUDE.
 */

import { SegmentMap, addGraticule, addPlaces, boundsOf, describe, element, legendOf, swatch } from "./segments.js";
import { Boundary, boxCondition, narrowed } from "./conditions.js";

const { L } = window;

const MOST_DRAWN = 6000; // segments
const DELAY = 250; // milliseconds after a movement of the map
const MARGIN = 0.25; // what is requested around the view, as a part of it
const DIGITS = 5; // of the view's latitude and longitude
// The properties that the map shows.
const SHOWN = [
    "FEDIRP", "FENAME", "FETYPE", "FEDIRS", "CFCC", "FRADDL", "TOADDL", "FRADDR", "TOADDR", "ZIPL", "ZIPR",
].join(",");
const NO_SELECTION = ["f", "limit", "offset", "address", "crs", "properties", "sortby"];
// What is drawn if there is too much in view: the roads of classes before these.
const CLASSES = ["A4", "A3", "A2"];

const find = id => document.getElementById(id);
const { root, items, collection, extent } = find("explorer").dataset;

/* Returns the parameters of an address that select segments. */
function selectionOf(url) {
    const pairs = [...url.searchParams].filter(([name]) => !NO_SELECTION.includes(name));
    return Object.fromEntries(pairs.filter(([name, value]) => name !== "filter" || value.trim()));
}

/* Returns the address of the segments with other parameters. Empty ones are left out. */
function addressWith(changes) {
    const url = new URL(window.location);
    url.pathname = items;
    url.searchParams.set("f", "html");
    for (const [name, value] of Object.entries(changes)) url.searchParams.set(name, value);
    for (const [name, value] of [...url.searchParams]) if (!value.trim()) url.searchParams.delete(name);
    return url;
}

async function fetchPage(url, signal) {
    const reply = await fetch(url, { headers: { Accept: "text/html" }, signal });
    return new DOMParser().parseFromString(await reply.text(), "text/html");
}

/* Takes over what another page has in an element. */
function adopt(id, page) {
    const target = find(id), source = page.getElementById(id);
    target.replaceChildren(...(source ? [...source.childNodes].map(node => document.importNode(node, true)) : []));
    if (source) Object.assign(target.dataset, source.dataset);
}

async function fetchFeatures(parameters, signal) {
    const reply = await fetch(`${items}?${new URLSearchParams({ f: "json", ...parameters })}`, { signal });
    const found = await reply.json();
    if (!reply.ok) throw new Error(found.detail.split("\n").pop());
    return found;
}

/* Returns the selection of the roads before a class among the segments of a selection. */
function mainRoads(selection, before) {
    const { filter } = selection;
    if (selection["filter-lang"] === "cql2-json" && filter) {
        const condition = { op: "<", args: [{ property: "CFCC" }, before] };
        return { ...selection, filter: JSON.stringify({ op: "and", args: [JSON.parse(filter), condition] }) };
    }
    return { ...selection, filter: `${filter ? `(${filter}) AND ` : ""}CFCC < '${before}'` };
}

/* Returns bounds as the parameter bbox, in which a box across the 180th meridian has its west in the east. */
function bboxOf(bounds) {
    const isAround = bounds.getEast() - bounds.getWest() >= 360;
    const turned = longitude => L.latLng(0, longitude).wrap().lng;
    const [west, east] = isAround ? [-180, 180] : [turned(bounds.getWest()), turned(bounds.getEast())];
    const [south, north] = [Math.max(bounds.getSouth(), -90), Math.min(bounds.getNorth(), 90)];
    return [west, south, east, north].map(degrees => degrees.toFixed(6)).join(",");
}

/* The segments of a selection: all of them if they are few, else those in view, else the main roads there. */
class Segments {
    constructor(selection, matched = Infinity) {
        Object.assign(this, { selection, isSmall: matched <= MOST_DRAWN, bounds: null, zoom: null, found: null });
    }

    /* Returns the features for a view. What was fetched is kept while the view stays inside it. */
    async inView(view, zoom, signal) {
        const isInside = this.found && (this.isSmall || this.bounds.contains(view));
        if (!isInside || !this.found.isWhole && zoom > this.zoom) {
            const bounds = view.pad(MARGIN);
            this.found = await this.fetch(bounds, signal);
            Object.assign(this, { bounds, zoom });
        }
        return this.found;
    }

    async fetch(bounds, signal) {
        const all = this.isSmall ? this.selection : { ...this.selection, bbox: bboxOf(bounds) };
        const count = async asked => (await fetchFeatures({ ...asked, limit: 1 }, signal)).numberMatched;
        const numberMatched = await count(all), isWhole = numberMatched <= MOST_DRAWN;
        let asked = all;
        for (const before of isWhole ? [] : CLASSES) {
            asked = mainRoads(all, before);
            if (await count(asked) <= MOST_DRAWN) break;
        }
        const { features } = await fetchFeatures({ ...asked, properties: SHOWN, limit: MOST_DRAWN }, signal);
        return { features, numberMatched, isWhole };
    }
}

const NOTHING = { inView: async () => ({ features: [], numberMatched: 0, isWhole: true }) };

/* Returns the feature of a row of the table. */
function featureOf(row) {
    const line = row.querySelector(".line").textContent.match(/\((.*)\)/);
    const coordinates = line ? line[1].split(",").map(point => point.trim().split(" ").map(Number)) : null;
    return { id: row.dataset.id, geometry: coordinates && { type: "LineString", coordinates } };
}

const said = count => count.toLocaleString("en-US");

/* The map of the page. */
class View {
    constructor(onNarrow) {
        const isStill = window.matchMedia("(prefers-reduced-motion: reduce)").matches;
        const options = { preferCanvas: true, zoomSnap: 0.5, minZoom: 2, maxZoom: 20, zoomAnimation: !isStill };
        this.map = L.map("map", options);
        this.map.attributionControl.setPrefix(false);
        if (!this.restore()) this.fit(View.extent());
        L.control.scale().addTo(this.map);
        addGraticule(this.map);
        this.segments = new SegmentMap(this.map, {
            onPoint: (feature, latlng) => this.point(feature, latlng),
            onChoose: (feature, latlng) => this.choose(feature, latlng),
        });
        this.boundary = new Boundary(this.map, find("draw"), text => this.say(text), onNarrow);
        this.tip = L.tooltip({ offset: [16, 0], direction: "right", opacity: 1 });
        this.popup = L.popup({ minWidth: 190, maxWidth: 260 });
        this.map.on("popupclose", () => this.mark(null));
        this.places = L.layerGroup();
        this.around = new Segments({});
        this.map.on("moveend", () => this.moved());
    }

    /* Returns the bounds of the collection, or those of the United States. */
    static extent() {
        const [west, south, east, north] = extent ? extent.split(",").map(Number) : [-125, 24, -66, 50];
        return L.latLngBounds([south, west > east ? west - 360 : west], [north, east]);
    }

    /* Shows the view of the address. Returns whether it has one. */
    restore() {
        const found = window.location.hash.match(/^#map=([0-9.]+)\/(-?[0-9.]+)\/(-?[0-9.]+)$/);
        if (found) this.map.setView([Number(found[2]), Number(found[3])], Number(found[1]), { animate: false });
        return Boolean(found);
    }

    fit(bounds) {
        if (bounds) this.map.fitBounds(bounds.pad(0.03), { maxZoom: 17, animate: false });
    }

    say(text) {
        find("view-status").textContent = text;
    }

    moved() {
        const { lat, lng } = this.map.getCenter();
        const place = [this.map.getZoom(), lat.toFixed(DIGITS), lng.toFixed(DIGITS)].join("/");
        window.history.replaceState(window.history.state, "", `#map=${place}`);
        window.clearTimeout(this.timer);
        this.timer = window.setTimeout(() => this.draw(), DELAY);
    }

    /* Shows another selection, or no segments but those around it if the filter is refused. */
    async select(selection, matched, isToFit) {
        delete find("map").dataset.selected;
        this.selected = Number.isNaN(matched) ? NOTHING : new Segments(selection, matched);
        this.hasAround = Object.keys(selection).length > 0;
        this.map.closePopup();
        await this.draw();
        if (isToFit && this.selected.isSmall && this.selected.found) this.fit(boundsOf(this.selected.found.features));
    }

    async draw() {
        if (this.controller) this.controller.abort();
        this.controller = new AbortController();
        const { signal } = this.controller, bounds = this.map.getBounds(), zoom = this.map.getZoom();
        try {
            const wanted = this.hasAround ? [this.selected, this.around] : [this.selected];
            const [selected, around] = await Promise.all(wanted.map(some => some.inView(bounds, zoom, signal)));
            this.segments.show(selected.features, around ? around.features : []);
            this.drawLegend(selected.features);
            find("map").dataset.selected = selected.features.length;
            if (!this.boundary.isActive) this.say(View.status(selected));
        } catch (error) {
            if (error.name !== "AbortError") this.say(error.message);
        }
    }

    static status({ features, numberMatched, isWhole }) {
        if (isWhole) return "";
        return `Main roads only, ${said(features.length)} of ${said(numberMatched)} segments. Zoom in for all.`;
    }

    drawLegend(features) {
        const rows = legendOf(features).map(({ style }) => element("li", {}, swatch(style), style.label));
        find("legend").replaceChildren(...rows);
    }

    point(feature, latlng) {
        if (this.boundary.isActive || this.popup.isOpen()) return;
        this.segments.highlight(feature);
        if (feature) this.tip.setContent(describe(feature)).setLatLng(latlng).addTo(this.map);
        else this.tip.remove();
    }

    choose(feature, latlng) {
        if (this.boundary.isActive) return;
        this.tip.remove();
        if (!feature) return;
        const link = element("a", { href: `${items}/${feature.id}?f=html` }, "All columns");
        this.popup.setContent(element("div", {}, describe(feature), link)).setLatLng(latlng).openOn(this.map);
        this.mark(feature);
    }

    /* Marks a feature on the map and its row in the table. */
    mark(feature) {
        this.segments.highlight(feature);
        for (const row of document.querySelectorAll("#rows [data-id]"))
            row.classList.toggle("found", Boolean(feature) && row.dataset.id === String(feature.id));
    }

    /* Shows markers of the places in the list. */
    showPlaces(isToFit) {
        const places = [...document.querySelectorAll("#places ol > li")].flatMap((row, at) =>
            [...row.querySelectorAll("[data-lat]")].map(({ dataset: { lat, lng, text } }) =>
                ({ lat: Number(lat), lng: Number(lng), text, label: String(at + 1) })));
        this.places.remove();
        this.places = addPlaces(this.map, places);
        if (isToFit && places.length) this.fit(L.latLngBounds(places.map(({ lat, lng }) => [lat, lng])).pad(0.2));
    }
}

/* The page: its forms, its links and its history. */
class Page {
    constructor() {
        this.view = new View(condition => this.narrow(condition));
        this.addresses = find("address").value.trim();
        this.listen();
        this.show(window.location.hash === "");
        this.view.showPlaces(window.location.hash === "");
    }

    listen() {
        this.onSubmit("filter-form", () => this.filter(find("filter").value));
        this.onSubmit("builder-form", form => this.filter(Page.built(new FormData(form))));
        this.onSubmit("address-form", () => this.go(addressWith({ address: find("address").value }), { isPlace: true }));
        for (const id of ["filter", "address"]) find(id).addEventListener("keydown", Page.submitByEnter);
        find("in-view").addEventListener("click", () => this.narrow(boxCondition(this.view.map.getBounds())));
        find("copy").addEventListener("click", Page.copy);
        find("program").addEventListener("toggle", () => this.list());
        document.addEventListener("click", event => this.follow(event));
        window.addEventListener("popstate", () => this.back());
        const rows = find("rows");
        for (const kind of ["mouseover", "focusin"]) rows.addEventListener(kind, event => this.pointAtRow(event));
        for (const kind of ["mouseout", "focusout"]) rows.addEventListener(kind, () => this.view.segments.highlight(null));
    }

    onSubmit(id, submitted) {
        find(id).addEventListener("submit", event => {
            event.preventDefault();
            submitted(event.target);
        });
    }

    static submitByEnter(event) {
        if (event.key !== "Enter" || event.shiftKey || event.isComposing) return;
        event.preventDefault();
        event.target.form.requestSubmit();
    }

    /* Returns the filter of the form that makes one. */
    static built(form) {
        const quoted = text => `'${text.replace(/'/g, "''")}'`;
        const conditions = {
            name: text => `CASEI(FENAME) = CASEI(${quoted(text)})`,
            number: text => `HAS_NUMBER(${text})`,
            zip: text => `(ZIPL = ${Number(text)} OR ZIPR = ${Number(text)})`,
            class: text => `CFCC LIKE ${quoted(`${text}%`)}`,
        };
        const given = [...form].map(([name, text]) => [name, text.trim()]).filter(([, text]) => text);
        return given.map(([name, text]) => conditions[name](text)).join(" AND ");
    }

    filter(text) {
        const language = text.trim().startsWith("{") ? "cql2-json" : "";
        return this.go(addressWith({ filter: text, "filter-lang": language, offset: "" }), { isToFit: true });
    }

    narrow(condition) {
        return this.filter(narrowed(find("filter").value, condition));
    }

    /* Goes to an address within the page. */
    async go(url, options = {}) {
        window.history.pushState(null, "", url);
        await this.load(url, options);
    }

    async back() {
        this.view.restore();
        await this.load(new URL(window.location), {});
    }

    /* Takes over the page of an address. That of addresses alone has the same segments. */
    async load(url, { isToFit = false, isPlace = false, isPage = false }) {
        const addresses = (url.searchParams.get("address") || "").trim();
        if (addresses !== this.addresses) await this.loadPlaces(addresses, isPlace);
        if (isPlace) return;
        if (this.controller) this.controller.abort();
        this.controller = new AbortController();
        const wanted = new URL(url);
        wanted.searchParams.delete("address");
        find("explorer").setAttribute("aria-busy", "true");
        try {
            this.adopt(await fetchPage(wanted, this.controller.signal), url);
            if (isPage) document.querySelector("#rows .wide").focus();
            else await this.show(isToFit);
        } catch (error) {
            if (error.name !== "AbortError") find("count").textContent = "The server doesn't answer.";
        }
        find("explorer").removeAttribute("aria-busy");
    }

    adopt(page, url) {
        document.querySelectorAll("[data-live]").forEach(({ id }) => adopt(id, page));
        document.title = page.title;
        const filter = find("filter"), mark = document.querySelector("#refusal mark");
        filter.value = url.searchParams.get("filter") || "";
        filter.setAttribute("aria-invalid", String(Boolean(find("refusal").textContent.trim())));
        if (!mark) return;
        filter.focus();
        filter.setSelectionRange(Number(mark.dataset.start), Number(mark.dataset.end));
    }

    async loadPlaces(addresses, isToFit) {
        this.addresses = addresses;
        find("address").value = addresses;
        const query = new URLSearchParams({ f: "html", address: addresses, collection });
        if (addresses) find("places").textContent = "Looking\u2026";
        adopt("places", addresses ? await fetchPage(`${root}/geocode?${query}`) : new Document());
        this.view.showPlaces(isToFit);
    }

    /* Draws the selection of the address, and lists its program if that is open. */
    async show(isToFit) {
        this.list();
        const matched = parseInt(find("formats").dataset.matched, 10);
        await this.view.select(selectionOf(new URL(window.location)), matched, isToFit);
    }

    /* Shows the listing of the program. */
    async list() {
        const link = find("listing-link").querySelector("a"), listing = find("listing");
        if (!find("program").open || !link) return;
        listing.textContent = "\u2026";
        const reply = await fetch(link.href);
        listing.textContent = reply.ok ? await reply.text() : "The filter is refused.";
    }

    /* Follows the links of the page without leaving it. */
    follow(event) {
        const link = event.target.closest("#pages a, #correction, .examples a, #all");
        const show = event.target.closest(".show");
        if (show) this.view.fit(boundsOf([featureOf(show.closest("tr"))]));
        if (!link || event.button || event.ctrlKey || event.metaKey || event.shiftKey || event.altKey) return;
        event.preventDefault();
        const url = new URL(link.href), isPage = link.closest("#pages") !== null;
        if (this.addresses) url.searchParams.set("address", this.addresses);
        url.hash = window.location.hash;
        this.go(url, { isToFit: !isPage, isPage });
    }

    pointAtRow(event) {
        const row = event.target.closest("tr[data-id]");
        if (row) this.view.segments.highlight(featureOf(row));
    }

    /* Copies the command line, or selects it if the browser doesn't allow that. */
    static async copy({ target }) {
        const code = find("command").querySelector("code");
        window.getSelection().selectAllChildren(code);
        if (!navigator.clipboard) return;
        await navigator.clipboard.writeText(code.textContent);
        target.textContent = "Copied";
        window.setTimeout(() => { target.textContent = "Copy"; }, 2000);
    }
}

document.documentElement.classList.add("js");
new Page();
