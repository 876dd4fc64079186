// What a pointer, fingers and keys do to the picture: they move it, zoom it, ask what stands at a point, and pick a source.

const ZOOM = 1.5;
const STEP = 60;
const STILL = 6;
const MOVES = { ArrowLeft: [STEP, 0], ArrowRight: [-STEP, 0], ArrowUp: [0, STEP], ArrowDown: [0, -STEP] };
const KEYS = {
    "+": ({ motion }) => motion.zoom(1 / ZOOM),
    "=": ({ motion }) => motion.zoom(1 / ZOOM),
    "-": ({ motion }) => motion.zoom(ZOOM),
    m: ({ pointing }) => pointing.measure(),
    c: ({ pointing }) => pointing.copy(),
    Enter: ({ picks, pointing, view }) => picks.at(pointing.at ?? view.middle()),
};

/** `page` has `motion`, `pointing`, `picks`, `view` and `drawing`, whose `density` is pixels of the picture to one of the screen. */
export function connectGestures(canvas, page) {
    const { motion, pointing, picks, drawing } = page;
    const fingers = new Map();
    // The middle of the pixel that an event is at.
    const at = (event) => [(event.offsetX + 0.5) * drawing.density, (event.offsetY + 0.5) * drawing.density];
    let moved = 0;

    canvas.addEventListener("pointerdown", (event) => {
        if (event.isTrusted) canvas.setPointerCapture(event.pointerId);
        fingers.set(event.pointerId, at(event));
        moved = fingers.size > 1 ? Infinity : 0;
        pointing.point(at(event));
    });
    canvas.addEventListener("pointermove", (event) => {
        const before = fingers.get(event.pointerId);
        const now = at(event);
        if (before && fingers.size === 1) {
            moved += Math.hypot(now[0] - before[0], now[1] - before[1]);
            if (moved > STILL * drawing.density) motion.drag(now[0] - before[0], now[1] - before[1]);
        } else if (before) pinch(event.pointerId, before, now);
        if (before && (fingers.size > 1 || moved > STILL * drawing.density)) fingers.set(event.pointerId, now);
        pointing.point(now);
    });
    const pinch = (id, before, now) => {
        const [, other] = [...fingers].find(([one]) => one !== id);
        const apart = (point) => Math.max(1, Math.hypot(point[0] - other[0], point[1] - other[1]));
        motion.zoom(apart(before) / apart(now), [(now[0] + other[0]) / 2, (now[1] + other[1]) / 2]);
        motion.drag((now[0] - before[0]) / 2, (now[1] - before[1]) / 2);
    };
    const lifted = (event) => {
        const isTap = event.type === "pointerup" && fingers.size === 1 && moved <= STILL * drawing.density;
        fingers.delete(event.pointerId);
        if (!isTap) return;
        pointing.point(at(event));
        picks.at(at(event));
    };
    canvas.addEventListener("pointerup", lifted);
    canvas.addEventListener("pointercancel", lifted);
    // A finger leaves when it is lifted, and what it read stays.
    canvas.addEventListener("pointerleave", (event) => event.pointerType !== "touch" && pointing.point(null));
    canvas.addEventListener("dblclick", (event) => motion.zoom(1 / ZOOM, at(event)));
    canvas.addEventListener("wheel", (event) => {
        event.preventDefault();
        motion.zoom(2 ** (Math.max(-100, Math.min(100, event.deltaY)) / 250), at(event));
    }, { passive: false });
    canvas.addEventListener("keydown", (event) => pressed(event, page));
    canvas.addEventListener("focus", () => pointing.byKeys(canvas.matches(":focus-visible")));
    canvas.addEventListener("blur", () => pointing.byKeys(false));
}

function pressed(event, page) {
    if (MOVES[event.key]) page.motion.drag(...MOVES[event.key]);
    else if (KEYS[event.key] && !event.ctrlKey && !event.metaKey) KEYS[event.key](page);
    else return;
    event.preventDefault();
    page.pointing.byKeys(true);
}
