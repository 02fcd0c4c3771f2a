/*
 * Draws the data of a page on its map. The page has this file after segments.js, in one script, since a file that is
 * opened without a server can't import another one.
 */
/* global L, STYLES, SegmentMap, addGraticule, boundsOf, describe, element, legendOf, styleOfClass, swatch */

const { around, column, restLabel, selected, styles, title } = JSON.parse(document.getElementById("data").textContent);
const allStyles = [...STYLES, ...styles];

/* Returns the place in allStyles of a feature's row in the legend. */
function styleOf(feature) {
    const { row } = feature.properties;
    return row === null ? styleOfClass(feature) : STYLES.length + row;
}

/* Returns the feature of a row of the data. Scores are texts, since they may have 64 bits. */
function featureOf([row, cfcc, name, score, coordinates], id) {
    const geometry = coordinates.length ? { type: "LineString", coordinates } : null;
    return { id, properties: { CFCC: cfcc, FENAME: name, row, score }, geometry };
}

/* Returns an element with what is known of a feature. */
function described(feature) {
    const { score } = feature.properties, box = describe(feature);
    if (score === null) return box;
    const rows = [element("dt", {}, column), element("dd", {}, BigInt(score).toLocaleString("en-US"))];
    box.querySelector("dl").append(...rows);
    return box;
}

function isDot(feature) {
    return Boolean(allStyles[styleOf(feature)].isDot);
}

function showLegend(features) {
    const row = (style, label, count) => element("li", {}, swatch(style), element("span", {}, label),
        element("span", {}, count.toLocaleString("en-US")));
    const rows = legendOf(features, { styles: allStyles, styleOf }).map(({ style, count }) => row(style, style.label, count));
    if (around.length) rows.push(row({ color: "#d5cfc1", width: 2 }, restLabel, around.length));
    document.getElementById("legend").append(element("li", {}, title), ...rows);
}

/* Adds a dot, which shows its address to a pointer and keeps it after a click. */
function addDot(map, feature, pane) {
    const [[longitude, latitude]] = feature.geometry.coordinates, { color, label } = allStyles[styleOf(feature)];
    const style = { radius: 6, weight: 1.5, color: "#ffffff", fillColor: color, fillOpacity: 1, pane };
    const text = () => element("div", {}, element("strong", {}, feature.properties.FENAME), element("br"), label);
    L.circleMarker([latitude, longitude], style).bindTooltip(text).bindPopup(text).addTo(map);
}

function showMap(features) {
    const map = L.map("map", { preferCanvas: true, zoomSnap: 0.5, maxZoom: 20 });
    const bounds = boundsOf(features.some(({ geometry }) => geometry) ? features : around.map(featureOf));
    map.attributionControl.setPrefix(false);
    map.fitBounds(bounds || [[24, -125], [50, -66]], { padding: [20, 20], maxZoom: 17 });
    L.control.scale().addTo(map);
    addGraticule(map);
    const dots = features.filter(isDot), lines = features.filter(feature => !isDot(feature));
    const tip = L.tooltip({ offset: [16, 0], direction: "right" });
    const segments = new SegmentMap(map, {
        styles: allStyles,
        styleOf,
        onPoint: (feature, latlng) => {
            segments.highlight(feature);
            if (!feature || dots.length) map.closeTooltip(tip);
            else map.openTooltip(tip.setContent(described(feature)).setLatLng(latlng));
        },
        onChoose: (feature, latlng) => feature && !dots.length && map.openPopup(described(feature), latlng),
    });
    segments.show(lines, around.map(row => featureOf(row)));
    map.createPane("dots").style.zIndex = 460;
    dots.forEach(dot => addDot(map, dot, "dots"));
}

const features = selected.map(featureOf);
showLegend(features);
showMap(features);
