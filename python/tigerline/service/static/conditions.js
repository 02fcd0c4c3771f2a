/* Conditions of filters that are made on the map: a box, and a boundary whose corners are clicked at. */

const { L } = window;

const NEAR = 12; // pixels from the first corner, which ends the boundary
const OWN = / AND S_INTERSECTS\(geometry, (?:BBOX|POLYGON)\([-0-9., ()]*\)\)$/;
const OWN_ALONE = /^S_INTERSECTS\(geometry, (?:BBOX|POLYGON)\([-0-9., ()]*\)\)$/;

const degrees = number => String(Number(number.toFixed(6)));

/* Returns the condition of a box, which is two boxes if it crosses the 180th meridian. */
export function boxCondition(bounds) {
    const [west, east] = [bounds.getWest(), bounds.getEast()].map(longitude => L.latLng(0, longitude).wrap().lng);
    const box = (from, to) => {
        const numbers = [from, Math.max(bounds.getSouth(), -90), to, Math.min(bounds.getNorth(), 90)];
        return `S_INTERSECTS(geometry, BBOX(${numbers.map(degrees).join(", ")}))`;
    };
    if (bounds.getEast() - bounds.getWest() >= 360) return box(-180, 180);
    return west <= east ? box(west, east) : `(${box(west, 180)} OR ${box(-180, east)})`;
}

/* Returns whether the first parenthesis of a filter closes at its end. */
function isInParentheses(filter) {
    let depth = 0;
    const depths = [...filter.replace(/'[^']*'/g, "")].map(char => depth += { "(": 1, ")": -1 }[char] || 0);
    return filter.startsWith("(") && depths.indexOf(0) === depths.length - 1;
}

/* Returns a filter with a condition, which replaces an earlier one of this page at its end, and a filter in JSON. */
export function narrowed(filter, condition) {
    const rest = filter.trim().replace(OWN, "").replace(OWN_ALONE, "");
    if (!rest || rest.startsWith("{")) return condition;
    const isBound = isInParentheses(rest) || !/\bor\b/i.test(rest);
    return `${isBound ? rest : `(${rest})`} AND ${condition}`;
}

/* Draws a boundary, corner by corner. */
export class Boundary {
    constructor(map, button, say, onDrawn) {
        Object.assign(this, { map, button, say, onDrawn, corners: [], isActive: false });
        this.shape = L.polygon([], { color: "#c4006a", weight: 2, dashArray: "5 4", interactive: false });
        button.addEventListener("click", () => this.toggle(!this.isActive));
        map.on("click", ({ latlng }) => this.isActive && this.add(latlng));
        map.on("dblclick", () => this.isActive && this.finish());
        document.addEventListener("keydown", ({ key }) => {
            if (!this.isActive) return;
            if (key === "Enter") this.finish();
            if (key === "Escape") this.toggle(false);
        });
    }

    toggle(isActive) {
        this.isActive = isActive;
        this.corners = [];
        this.button.setAttribute("aria-pressed", String(isActive));
        this.map.getContainer().classList.toggle("drawing", isActive);
        this.map.doubleClickZoom[isActive ? "disable" : "enable"]();
        this.shape.setLatLngs([]);
        if (isActive) this.shape.addTo(this.map);
        else this.shape.remove();
        this.say(isActive ? "Click at the corners of the boundary, and at the first one to end it. Esc cancels." : "");
    }

    add(latlng) {
        const point = this.map.latLngToLayerPoint(latlng);
        const isAt = corner => this.map.latLngToLayerPoint(corner).distanceTo(point) < NEAR;
        if (this.corners.length > 2 && isAt(this.corners[0])) {
            this.finish();
            return;
        }
        // The second click of two is at the same place.
        if (this.corners.length && this.map.latLngToLayerPoint(this.corners[this.corners.length - 1]).equals(point)) return;
        this.corners.push(latlng);
        this.shape.setLatLngs(this.corners);
    }

    finish() {
        const places = this.corners.map(corner => corner.wrap());
        this.toggle(false);
        if (places.length < 3) return;
        const ring = [...places, places[0]].map(({ lat, lng }) => `${degrees(lng)} ${degrees(lat)}`).join(", ");
        this.onDrawn(`S_INTERSECTS(geometry, POLYGON((${ring})))`);
    }
}
