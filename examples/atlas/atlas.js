// The page: its parts, and what one tells another.

import { Background } from "./background.js";
import { Catalogue } from "./catalogue.js";
import { COLOURS } from "./colours.js";
import { Compare } from "./compare.js";
import { Controls, beginTheme } from "./controls.js";
import { Drawing } from "./drawing.js";
import { connectGestures } from "./gestures.js";
import { Live } from "./live.js";
import { Motion } from "./motion.js";
import { Opened } from "./opened.js";
import { leafPixel } from "./orders.js";
import { element } from "./panel.js";
import { Picks } from "./picks.js";
import { Pointing } from "./pointing.js";
import { sayCatalogue, sayScale, sayState } from "./said.js";
import { connectSaves } from "./save.js";
import { ScaleControls } from "./scale.js";
import { connectSearch } from "./search.js";
import { SourcesPanel } from "./sources.js";
import { View } from "./view.js";
import { Visits } from "./visits.js";

const LEAST_PIXELS_ACROSS = 6;
const SWITCHES = { grid: true, compass: true, galactic: false, hours: false, coverage: true, cells: false, changes: true, catalogue: true };

class Atlas {
    constructor(address, catalogue, drawBy) {
        this.address = address;
        this.view = new View();
        this.scale = { low: null, high: null, stretch: "linear", colours: COLOURS[0], isInverted: false };
        this.switches = { ...SWITCHES };
        this.others = { second: "", background: "" };
        const inView = (generation) => this.drawing.inView(generation);
        this.live = new Live(address, { inView, opened: (generation) => this.begin(generation), changed: () => this.changed() });
        this.catalogue = new Catalogue(catalogue, () => this.drawing.draw());
        const second = { inView, changed: () => this.changed(), opened: (name, path) => this.openedOther(name, path) };
        this.compare = new Compare(second);
        this.background = new Background(second);
        this.opened = new Opened({ changed: () => this.drawing.draw(), found: (ra, dec) => this.motion.goTo(ra, dec) });
        this.scaleControls = new ScaleControls(this);
        this.drawing = new Drawing(this, drawBy);
        this.motion = new Motion(this);
        this.pointing = new Pointing(this);
        this.picks = new Picks(this);
        this.sources = new SourcesPanel(this);
        this.controls = new Controls(this);
        this.visits = new Visits(this);
        this.visits.read();
        this.drawing.measure();
    }

    connect(resolver) {
        for (const part of [this.controls, this.scaleControls, this.compare, this.background, this.opened, this.sources, this.visits]) part.connect();
        connectSearch(resolver, { isGalactic: () => this.switches.galactic, found: (ra, dec) => this.motion.goTo(ra, dec) });
        connectSaves(this);
        connectGestures(element("lines"), this);
        window.addEventListener("resize", () => {
            this.drawing.measure();
            this.motion.moveTo(this.view);
        });
        this.openOthers();
    }

    start() {
        this.live.start();
        this.catalogue.open().then(() => this.viewCatalogue());
    }

    // ---- what the survey tells

    /** What is known of the first generation sets the first view and the first cuts, where the page's address doesn't. */
    begin(generation) {
        const [ra, dec, fov] = ["hips_initial_ra", "hips_initial_dec", "hips_initial_fov"].map((key) => generation.number(key));
        if (!this.visits.isTold && ra !== null && dec !== null) this.motion.moveTo({ ra, dec, width: fov ?? this.view.width });
        else this.visits.begin();
        const cuts = (generation.properties.get("hips_pixel_cut") ?? "").split(/\s+/).map(Number);
        if (this.scale.low === null && cuts.length === 2 && cuts[0] < cuts[1]) Object.assign(this.scale, { low: cuts[0], high: cuts[1] });
        this.isCut = this.scale.low !== null;
        this.scaleControls.show();
    }

    /** The survey is another, or more of it is here. */
    changed() {
        const generation = this.live.shown;
        this.drawing.changed();
        if (generation && !this.isCut) this.cut(generation);
        if (generation) this.view.least = leafPixel(generation) * LEAST_PIXELS_ACROSS;
    }

    /** The first cuts, where none were told: they fit the coarse tiles in view, and then all that is. */
    cut(generation) {
        const [next] = this.live.lacking(generation);
        if (next && (next.isCoarse || this.scale.low !== null)) return;
        this.scaleControls.fit();
        this.isCut = next === undefined;
    }

    get isWhole() {
        return this.live.isWhole && this.compare.isWhole && this.background.isWhole;
    }

    /** The picture is drawn. */
    drawn(generation) {
        sayState({ live: this.live, changes: this.drawing.changes, isWhole: this.isWhole && !this.drawing.isMoving }, generation && this.drawing.orderOf(generation));
        sayScale(this.view, this.drawing.density);
        sayCatalogue(this.catalogue);
        this.pointing.tell();
    }

    // ---- what a person does

    /** The view rests. */
    settled() {
        this.visits.write(true);
        this.live.viewed();
        for (const { second } of [this.compare, this.background]) second?.view();
        this.viewCatalogue();
    }

    viewCatalogue() {
        if (this.switches.catalogue) this.catalogue.view((order) => this.drawing.cellsOf(order));
    }

    /** Cuts, stretch or colours are set. */
    scaled() {
        this.isCut = true;
        this.drawing.draw();
        this.visits.write();
    }

    setSwitch(name, isOn) {
        this.switches[name] = isOn;
        this.viewCatalogue();
        this.drawing.draw();
        this.visits.write();
    }

    /** Another HiPS is shown, at a path, or none is. */
    openedOther(name, path) {
        this.others[name] = path;
        this.drawing.moved();
        this.visits.write();
    }

    /** Opens the other HiPS of the page's address. */
    openOthers() {
        for (const form of [this.compare, this.background]) {
            const path = this.others[form.name];
            if (path !== (form.second?.address ?? "")) form.open(path);
        }
    }

    /** The page's address is another. */
    returned() {
        this.openOthers();
        this.scaleControls.show();
        this.controls.show();
        this.motion.moveTo(this.view);
    }
}

beginTheme();
const words = new URLSearchParams(window.location.search);
const configured = (name) => (words.get(name) ?? document.body.dataset[name]).replace(/\/$/, "");
const atlas = new Atlas(configured("survey"), configured("catalogue"), words.get("draw"));
atlas.connect(configured("resolver"));
atlas.start();
