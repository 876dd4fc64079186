// The files of a HiPS, as a server gives them.

import { FitsFault } from "./fits.js";

const PATIENCE = 20_000;

/** What is said to whoever looks at the page. */
export class SurveyFault extends Error {}

/** Asks for a file of hipsd: its generation, and its bytes, or none where the survey has no such file. */
export async function ask(address, path) {
    const reply = await replyFor(address, path);
    const prefix = reply.headers.get("Survey-Prefix");
    if (prefix === null) throw new SurveyFault(`The reply for ${path} has no Survey-Prefix: there is no hipsd at ${address}.`);
    return { prefix: Number(prefix), bytes: await bytesOf(reply, path) };
}

/** Asks for a file of any HiPS: its bytes, or none. */
export async function askFile(address, path) {
    return bytesOf(await replyFor(address, path), path);
}

async function replyFor(address, path) {
    const reply = await fetch(`${address}/${path}`, { cache: "no-store", signal: AbortSignal.timeout(PATIENCE) }).catch(() => {
        throw new SurveyFault("The server can't be reached.");
    });
    if (!reply.ok && reply.status !== 404) throw new SurveyFault(`The server answers ${path} by ${reply.status} ${reply.statusText}.`);
    return reply;
}

async function bytesOf(reply, path) {
    const bytes = await reply.arrayBuffer().catch(() => {
        throw new SurveyFault(`The server broke off within ${path}.`);
    });
    return reply.ok ? bytes : null;
}

export function tilePath(order, cell) {
    return `Norder${order}/Dir${Math.floor(cell / 10000) * 10000}/Npix${cell}.fits`;
}

/** What a file holds, by the reader for it; a fault is told with its path. */
export function read(path, bytes, reader) {
    try {
        return reader(bytes);
    } catch (fault) {
        throw fault instanceof FitsFault ? new SurveyFault(`${path} can't be read: ${fault.message}.`) : fault;
    }
}

/** The lines `key = value` of a text. */
export function readProperties(text) {
    const lines = text.split("\n").filter((line) => line.includes("="));
    return new Map(lines.map((line) => [line.slice(0, line.indexOf("=")).trim(), line.slice(line.indexOf("=") + 1).trim()]));
}
