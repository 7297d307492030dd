// Tabs, of which each shows its panel: arrow keys, Home and End go from one to another, and the tab key reaches the one that is chosen.
import { byId } from "./page_elements.js";

const tabs = () => [...document.querySelectorAll('[role="tab"]')];
const panelOf = (tab) => byId(tab.getAttribute("aria-controls"));

export function choose(id) {
    for (const tab of tabs()) {
        const isChosen = tab.id === id;
        tab.setAttribute("aria-selected", isChosen);
        tab.tabIndex = isChosen ? 0 : -1;
        panelOf(tab).hidden = !isChosen;
    }
}

function move(event) {
    const all = tabs(), now = all.indexOf(document.activeElement), last = all.length - 1;
    const to = { ArrowLeft: now - 1, ArrowRight: now + 1, Home: 0, End: last }[event.key];
    if (to === undefined) return;
    event.preventDefault();
    const tab = all[(to + all.length) % all.length];
    choose(tab.id);
    tab.focus();
}

export function listenToTabs() {
    for (const tab of tabs()) {
        tab.addEventListener("click", () => choose(tab.id));
        tab.addEventListener("keydown", move);
    }
}
