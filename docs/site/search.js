// Finds sections of the guide that have all words that are typed.
const input = document.getElementById("search");
const found = document.getElementById("found");
let sections;

async function load() {
    sections ??= await (await fetch("sections.json")).json();
}

function matches(words) {
    return sections.filter(({ title, text }) => {
        const all = `${title} ${text}`.toLowerCase();
        return words.every((word) => all.includes(word));
    });
}

function link({ url, title }) {
    const item = document.createElement("li");
    const anchor = item.appendChild(document.createElement("a"));
    anchor.href = url;
    anchor.textContent = title;
    return item;
}

input.addEventListener("focus", load);
input.addEventListener("input", async () => {
    await load();
    const words = input.value.toLowerCase().split(/\s+/).filter(Boolean);
    found.replaceChildren(...(words.length ? matches(words).slice(0, 8).map(link) : []));
});
