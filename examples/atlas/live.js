// Keeps one generation of a survey shown, and goes to the next one when it is whole. Every reply names the edits that it shows, its
// prefix; a generation takes only replies of its own prefix. What is shown stays until all that is in view has come of the next one.
// Of that only the tiles come that a publication touched (patch.js); where it takes all of the sky to find these, at most every ten
// seconds. A change that is too small for coarse tiles is found a little later: once no other generation has come for some seconds, each
// tile that was taken over unseen is looked at itself.

import { SurveyFault, ask } from "./files.js";
import { Generation } from "./survey.js";

const PAUSE = 1000;
const PAUSE_FOR_SKY = 10_000;
const PAUSE_FOR_OLDER = 300;
const PAUSE_FOR_OTHERS = 20;
const QUIET = 2500;
// Looking at tiles that were taken over costs at most so many bytes a second.
const BYTES_TO_CHECK = 100_000;
const FETCHES_AT_ONCE = 6;
const MOST_TILES = 600;
// A cache before the server may answer from the generation before for a second; a server that began anew does so for longer.
const OLDER_REPLIES_BEFORE_ANEW = 4;

/** A reply is of a later generation than the one that is being fetched. */
class Overtaken extends Error {
    constructor(prefix) {
        super(`Generation ${prefix} was published.`);
        this.prefix = prefix;
    }
}

export class Live {
    /**
     * `page.inView` says of a generation which tiles the picture needs: {order, cells}, with order null where the mosaic is enough;
     * `page.opened` is called when it is known which tiles the first generation has, and `page.changed` whenever `shown`, `changes`,
     * `isWhole` or `fault` is another.
     */
    constructor(address, page) {
        Object.assign(this, { address, page });
        this.shown = null;
        this.coming = null;
        this.changes = null;
        this.fault = null;
        this.isAway = false;
        this.lookedAt = -PAUSE_FOR_SKY;
        this.olderReplies = 0;
    }

    async start() {
        for (;;) {
            await this.look();
            await pause(PAUSE);
        }
    }

    /** Everything that the picture needs is there, of the newest generation that is known. */
    get isWhole() {
        return this.shown !== null && !this.isComing && this.fault === null && this.lacking(this.shown).length === 0;
    }

    /** A newer generation is known than the one that is shown. */
    get isComing() {
        return this.shown !== null && this.coming !== null;
    }

    /** It is too early to look at all of the sky once more. */
    get isEarly() {
        return performance.now() - this.lookedAt < PAUSE_FOR_SKY;
    }

    /** The picture shows another part of the sky: fetches what it lacks. */
    viewed() {
        const generation = this.coming ?? this.shown;
        if (generation?.coverage && !this.isAway) this.fill(generation).catch((fault) => this.stopped(generation, fault));
    }

    /** Asks which generation is the newest. */
    async look() {
        try {
            const { prefix } = await ask(this.address, "properties");
            this.heard(prefix);
        } catch (fault) {
            this.lost(fault);
        }
    }

    heard(prefix) {
        const newest = this.coming ?? this.shown;
        // After older replies its edits may count anew.
        const isOvertaken = this.olderReplies > 0 && prefix > newest.prefix;
        this.olderReplies = newest && prefix < newest.prefix ? this.olderReplies + 1 : 0;
        const isAnew = this.isAway || isOvertaken || this.olderReplies >= OLDER_REPLIES_BEFORE_ANEW;
        const isOther = !newest || prefix > newest.prefix || isAnew;
        if (isOther) this.begin(prefix, isAnew);
        else if (this.fault || this.coming) this.viewed();
        else if (this.shown?.unsure.size > 0 && performance.now() - this.since > QUIET) this.check(this.shown);
    }

    lost(fault) {
        this.isAway = true;
        this.coming = null;
        this.tell(fault);
    }

    /** Fetches a generation, beside the one that is shown. A server that began anew may have other edits under the same number. */
    begin(prefix, isAnew = false) {
        const generation = new Generation(prefix, isAnew ? null : this.shown);
        this.coming = generation;
        this.isAway = false;
        this.olderReplies = 0;
        if (this.shown) this.page.changed();
        this.load(generation, isAnew).catch((fault) => this.stopped(generation, fault));
    }

    async load(generation, isAnew) {
        generation.isAnew = isAnew;
        await generation.open((path) => this.get(generation, path));
        if (this.shown === null && this.coming === generation) {
            this.page.opened(generation);
            this.show(generation);
        }
        await this.fill(generation);
    }

    /** Fetches what a generation lacks in view, some files at once; and shows it when none is lacking. */
    async fill(generation) {
        if (generation.isFilling) return;
        generation.isFilling = true;
        try {
            await Promise.all(Array.from({ length: FETCHES_AT_ONCE }, () => this.fetchNext(generation)));
        } finally {
            generation.isFilling = false;
        }
        if (this.isCurrent(generation) && this.lacking(generation).length === 0) this.filled(generation);
    }

    async fetchNext(generation) {
        while (this.isCurrent(generation)) {
            const wanted = this.lacking(generation);
            const file = wanted.find(({ path }) => !generation.fetching.has(path));
            if (wanted.length === 0 || (file?.isMuch && !generation.isLooking && this.isEarly)) return;
            if (file === undefined) await pause(PAUSE_FOR_OTHERS);
            else await this.fetch(generation, file);
        }
    }

    async fetch(generation, file) {
        if (file.isMuch || file.order === null) {
            generation.isLooking = true;
            this.lookedAt = performance.now();
        }
        await generation.fetch((path) => this.get(generation, path), file);
        if (generation === this.shown) this.page.changed();
    }

    filled(generation) {
        generation.tidy(this.page.inView(generation), MOST_TILES);
        if (generation === this.coming) this.show(generation);
        else if (this.fault) this.tell(null);
        else this.page.changed();
    }

    show(generation) {
        const view = this.page.inView(generation);
        this.changes = this.shown && !generation.isAnew ? generation.changesSince(this.shown, view) : null;
        generation.patch?.end(view);
        this.shown = generation;
        this.coming = null;
        this.since = performance.now();
        this.tell(null);
    }

    /** Looks at tiles in view that were kept of the generation before, one after another, as long as the bytes of this second last. */
    async check(generation) {
        if (this.isChecking) return;
        this.isChecking = true;
        this.bytesLeft = Math.min(BYTES_TO_CHECK, (this.bytesLeft ?? 0) + BYTES_TO_CHECK);
        const get = async (path) => {
            const bytes = await this.get(generation, path);
            this.bytesLeft -= bytes?.byteLength ?? 0;
            return bytes;
        };
        try {
            const { order, cells } = this.page.inView(generation);
            for (const cell of cells) {
                if (!generation.keeps(order, cell)) continue;
                if (this.bytesLeft <= 0 || !this.isCurrent(generation) || generation !== this.shown) return;
                this.changes?.cells.push(...(await generation.check(get, order, cell)));
                this.page.changed();
            }
        } catch (fault) {
            this.stopped(generation, fault);
        } finally {
            this.isChecking = false;
        }
    }

    /** Whether each tile in view is known to be of the generation that is shown. */
    get isSure() {
        if (!this.isWhole) return false;
        const { order, cells } = this.page.inView(this.shown);
        return this.shown.unsure.size === 0 || !cells.some((cell) => this.shown.keeps(order, cell));
    }

    lacking(generation) {
        return generation.lacking(this.page.inView(generation));
    }

    isCurrent(generation) {
        return generation === (this.coming ?? this.shown) && !this.isAway;
    }

    /** The bytes of a file of that generation; asked for again where the reply is of an older one. */
    async get(generation, path) {
        for (let again = 0; again < OLDER_REPLIES_BEFORE_ANEW * 4; again++) {
            const { prefix, bytes } = await ask(this.address, path);
            if (prefix === generation.prefix) return bytes;
            if (prefix > generation.prefix) throw new Overtaken(prefix);
            await pause(PAUSE_FOR_OLDER);
        }
        throw new SurveyFault(`Replies for ${path} stay older than generation ${generation.prefix}.`);
    }

    /** Fetching a generation ended before it was whole. */
    stopped(generation, fault) {
        if (!this.isCurrent(generation)) return;
        if (fault instanceof Overtaken) this.begin(fault.prefix);
        else if (fault instanceof SurveyFault) this.halted(generation, fault);
        else throw fault;
    }

    /** A file can't be had: it is asked for again after the next look. */
    halted(generation, fault) {
        if (generation === this.coming) this.coming = null;
        this.isAway = true;
        this.tell(fault);
    }

    tell(fault) {
        this.fault = fault;
        this.page.changed();
    }
}

function pause(milliseconds) {
    return new Promise((resume) => setTimeout(resume, milliseconds));
}
