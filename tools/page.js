// The page of a heap. What is known of it stands in the element "heap", as the program wrote it: the answers of State, Read and Why.
//     blocks, root                                     of the heap
//     columns, cell, side, left, top, numbered         where its squares are, and whether they have room for their numbers
//     stateTexts, whyTexts                             what the numbers of State and of Why mean
//     states, reasons                                  of each block, from block 2 on
//     words                                            the eight words of each block, none where Read refuses it
//     references                                       which of them are references: bit w is for word w
//     fromBlock, fromWord                              the last pair of the path to each block, 0 where there is none
"use strict";
const heap = JSON.parse(document.getElementById("heap").textContent);
const first = 2, last = heap.blocks + 1;
const map = document.getElementById("map");
const shown = document.getElementById("block");
const hint = document.getElementById("hint");
const usual = hint.textContent;
let chosen = 0;

const isBlock = (number) => Number.isInteger(number) && number >= first && number <= last;
const stateText = (block) => heap.stateTexts[heap.states[block - first]];
const isReference = (block, word) => (heap.references[block - first] >> word & 1) === 1;

// ---- what names a block: (block, word) pairs, found once ----

const namedBy = Array.from({length: heap.blocks}, () => []);
for (let block = first; block <= last; block++)
    heap.words[block - first].forEach((value, word) => {
        if (isReference(block, word) && value !== 0)
            namedBy[value - first].push([block, word]);
    });

// The path from the root: (block, word) pairs. Each but the last is on the path to the block before it, too.
function pathTo(block) {
    const path = [];
    while (heap.fromBlock[block - first] !== 0) {
        path.push([heap.fromBlock[block - first], heap.fromWord[block - first]]);
        block = heap.fromBlock[block - first];
    }
    return path.reverse();
}

// ---- elements ----

function element(name, ...children) {
    const made = document.createElement(name);
    made.append(...children);
    return made;
}

// A block's number as a button that shows the block. The button is gone then, so the heading gets the focus.
function link(block) {
    const button = element("button", "block " + block);
    button.type = "button";
    button.className = "to";
    button.addEventListener("click", () => {
        choose(block);
        shown.querySelector("h2").focus();
    });
    return button;
}

// At most so many items: of a longer list the middle is left out.
const MOST_ITEMS = 20;
function list(kind, items, made) {
    const all = element(kind), half = MOST_ITEMS / 2;
    items.forEach((item, i) => {
        if (items.length <= MOST_ITEMS || i < half || i >= items.length - half) {
            const line = element("li", ...made(item, i));
            if (kind === "ol")
                line.value = i + 1;
            all.append(line);
        } else if (i === half) {
            const line = element("li", "… " + (items.length - MOST_ITEMS) + " more …");
            line.style.listStyle = "none";
            all.append(line);
        }
    });
    return all;
}

// ---- what is shown of a block ----

function whyPart(block) {
    const path = pathTo(block);
    const text = block === heap.root ? "it is the root" : heap.whyTexts[heap.reasons[block - first]];
    const part = [element("h3", "Why it is here"), element("p", text)];
    if (path.length > 0)
        part.push(list("ol", path, ([from, word], i) =>
            ["word " + word + " of ", link(from), " names ", link(i + 1 < path.length ? path[i + 1][0] : block)]));
    return part;
}

function wordsPart(block) {
    const words = heap.words[block - first];
    if (words.length === 0)
        return [];
    const rows = words.map((value, word) => {
        const holds = !isReference(block, word) ? "number " + value : value === 0 ? "reference to none" : "reference to ";
        const cell = element("td", holds);
        if (isReference(block, word) && value !== 0)
            cell.append(link(value));
        return element("tr", element("td", word), cell);
    });
    return [element("h3", "Its words"), element("table", element("tr", element("th", "word"), element("th", "holds")), ...rows)];
}

function namedPart(block) {
    const names = namedBy[block - first];
    const part = [element("h3", "What names it")];
    if (names.length === 0)
        part.push(element("p", block === heap.root ? "no word, but it is the root" : "nothing"));
    else
        part.push(list("ul", names, ([from, word]) => ["word " + word + " of ", link(from)]));
    return part;
}

// ---- the map ----

const leftOf = (block) => heap.left + (block - first) % heap.columns * heap.cell;
const topOf = (block) => heap.top + Math.floor((block - first) / heap.columns) * heap.cell;

// A square so much larger than the block's, for the attribute d.
const squareAround = (block, more) => "M" + (leftOf(block) - more) + " " + (topOf(block) - more)
    + "h" + (heap.side + 2 * more) + "v" + (heap.side + 2 * more) + "h-" + (heap.side + 2 * more) + "z";

// The path lies below the numbers. Where there are none, it has a rim, so that it is seen on any colour; a long one is thin, so that the
// blocks below it are seen.
const LONG_PATH = 300;
function drawChosen(block) {
    const path = pathTo(block).map(([from]) => from);
    const points = [...path, block].map((at) => (leftOf(at) + heap.side / 2) + "," + (topOf(at) + heap.side / 2)).join(" ");
    map.classList.toggle("long-path", path.length > LONG_PATH);
    document.getElementById("path-under").setAttribute("points", heap.numbered ? "" : points);
    document.getElementById("path-over").setAttribute("points", points);
    document.getElementById("path-blocks").setAttribute("d", path.map((at) => squareAround(at, 0)).join(""));
    document.getElementById("chosen").setAttribute("d", squareAround(block, heap.numbered ? 2 : 5));
}

// The block at a place on the screen, 0 where there is none.
function blockAt(event) {
    const at = new DOMPoint(event.clientX, event.clientY).matrixTransform(map.getScreenCTM().inverse());
    const column = Math.floor((at.x - heap.left) / heap.cell), row = Math.floor((at.y - heap.top) / heap.cell);
    const block = first + row * heap.columns + column;
    return column >= 0 && column < heap.columns && row >= 0 && isBlock(block) ? block : 0;
}

// Shows a block, and remembers it behind the # of the page's address.
function choose(block) {
    if (!isBlock(block))
        return;
    chosen = block;
    document.getElementById("number").value = block;
    const heading = element("h2", "Block " + block);
    heading.tabIndex = -1;
    shown.replaceChildren(heading, element("p", stateText(block) + (block === heap.root ? ", the root" : "")),
        ...whyPart(block), ...wordsPart(block), ...namedPart(block));
    drawChosen(block);
    history.replaceState(null, "", "#" + block);
}

// Where a key goes from the block that is shown.
function step(key) {
    return {
        ArrowLeft: chosen - 1, ArrowRight: chosen + 1, ArrowUp: chosen - heap.columns, ArrowDown: chosen + heap.columns,
        Home: first, End: last
    }[key];
}

map.addEventListener("click", (event) => choose(blockAt(event)));
map.addEventListener("pointermove", (event) => {
    const block = blockAt(event);
    hint.textContent = block === 0 ? usual : "block " + block + ": " + stateText(block);
});
map.addEventListener("pointerleave", () => { hint.textContent = usual; });
map.addEventListener("keydown", (event) => {
    const block = step(event.key);
    if (block === undefined || event.ctrlKey || event.altKey || event.metaKey)
        return;
    event.preventDefault();
    choose(block);
    document.getElementById("chosen").scrollIntoView({block: "nearest", inline: "nearest"});
});
document.getElementById("go").addEventListener("submit", (event) => {
    event.preventDefault();
    const block = Number(document.getElementById("number").value);
    if (isBlock(block))
        choose(block);
    else
        shown.replaceChildren(element("p", "There is no such block; this heap has the blocks " + first + " to " + last + "."));
});
const asked = () => Number(location.hash.slice(1));
window.addEventListener("hashchange", () => choose(asked()));
choose(isBlock(asked()) ? asked() : heap.root || first);
