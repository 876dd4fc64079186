// Which sources are shown: `mag < 6 & name ~ NGC` has conditions of columns, all of which a source meets.

const CONDITION = /^\s*("[^"]+"|[^<>=!~]+?)\s*(<=|>=|!=|<|>|=|~)\s*(.+?)\s*$/;
const TESTS = {
    "<": (one, other) => one < other,
    "<=": (one, other) => one <= other,
    ">": (one, other) => one > other,
    ">=": (one, other) => one >= other,
};

/** A function that tells of a row whether it is shown: {accepts}; or {fault}, in words. */
export function readFilter(text) {
    if (text.trim() === "") return { accepts: () => true };
    const conditions = text.split("&").map((part) => CONDITION.exec(part));
    if (conditions.includes(null)) return { fault: "A filter is written as: mag < 6 & name ~ NGC" };
    const tests = conditions.map(([, name, sign, value]) => [name.replaceAll('"', "").trim(), testOf(sign, value.replaceAll('"', ""))]);
    if (tests.some(([, test]) => test === null)) return { fault: "What is smaller or greater than a column is a number." };
    const accepts = ({ names, values }) => tests.every(([name, test]) => {
        const at = names.indexOf(name);
        return at >= 0 && values[at] !== undefined && test(values[at]);
    });
    return { accepts };
}

/** Whether a text meets a condition; null where this compares with no number. */
function testOf(sign, value) {
    const number = Number(value);
    if (sign === "~") return (text) => text.toLowerCase().includes(value.toLowerCase());
    if (sign in TESTS) return Number.isNaN(number) ? null : (text) => text !== "" && TESTS[sign](Number(text), number);
    const isEqual = (text) => text === value || (text !== "" && Number(text) === number);
    return sign === "=" ? isEqual : (text) => !isEqual(text);
}
