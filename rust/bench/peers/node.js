// Node: the text is decoded with a check of its encoding, JSON.parse builds a tree, and the nodes
// are counted in the tree. The command line is that of common.hpp.
'use strict';
const fs = require('fs');

const [file, milliseconds, batch, ...words] = process.argv.slice(2);
const bytes = fs.readFileSync(file);
const steps = words.map((word) => {
    const deep = word.startsWith('..');
    const taken = word.slice(deep ? 2 : word.startsWith('.') ? 1 : 0);
    const position = taken.startsWith('[') ? parseInt(taken.slice(1), 10) : -1;
    return { deep, name: position < 0 ? taken : null, position };
});
const all = (1 << steps.length) - 1;
const mask = (test) => steps.reduce((bits, step, at) => bits | (test(step) ? 1 << at : 0), 0);
const stars = mask((step) => step.name === '*');
const deeps = mask((step) => step.deep);

function takingMember(marks, key) {
    let taking = marks & stars;
    for (let at = 0; at < steps.length; at += 1) {
        if ((marks & ~stars & (1 << at)) !== 0 && steps[at].name === key) {
            taking |= 1 << at;
        }
    }
    return taking;
}

const placed = mask((step) => step.position >= 0);

function takingElement(marks, position) {
    let taking = marks & stars;
    if ((marks & placed) !== 0) {
        for (let at = 0; at < steps.length; at += 1) {
            if ((marks & (1 << at)) !== 0 && steps[at].position === position) {
                taking |= 1 << at;
            }
        }
    }
    return taking;
}

function below(value, marks) {
    let nodes = 0;
    const take = (child, taking) => {
        const next = ((taking << 1) & all) | (marks & deeps);
        nodes += (taking << 1) & ~all ? 1 : 0;
        if (next !== 0 && typeof child === 'object' && child !== null) {
            nodes += below(child, next);
        }
    };
    if (Array.isArray(value)) {
        for (let position = 0; position < value.length; position += 1) {
            take(value[position], takingElement(marks, position));
        }
    } else {
        for (const key in value) {
            take(value[key], takingMember(marks, key));
        }
    }
    return nodes;
}

function count() {
    const root = JSON.parse(new TextDecoder('utf-8', { fatal: true }).decode(bytes));
    return steps.length === 0 ? 1 : below(root, 1);
}

// The processor time of all threads in nanoseconds.
function now() {
    const { user, system } = process.cpuUsage();
    return 1000 * (user + system);
}

let nodes = 0;
let best = Infinity;
const began = now();
for (let rows = 0; rows < 2 || now() - began < 1e6 * milliseconds; rows += 1) {
    const rowBegan = now();
    for (let at = 0; at < batch; at += 1) {
        nodes = count();
    }
    best = Math.min(best, (now() - rowBegan) / batch);
}
console.log(`${nodes} ${best.toFixed(1)}`);
