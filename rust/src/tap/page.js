// SPDX-License-Identifier: Apache-2.0
// The filter of a page, and the way from one finding to the next. Without it the page shows all rows.
"use strict";
addEventListener("DOMContentLoaded", () => {
    const control = name => document.getElementById(name);
    const [search, session, findings] = ["search", "session", "findings"].map(control);
    const sections = [...document.querySelectorAll("main section")].map(section => ({ section, rows: [...section.children] }));
    const total = sections.reduce((count, { rows }) => count + rows.length, 0);
    const requests = new Set([...document.querySelectorAll("#requests option")].map(option => option.value));
    // The text of a row is read once, when it is first searched.
    const texts = new Map();
    const textOf = row => {
        if (!texts.has(row)) texts.set(row, row.textContent.toLowerCase());
        return texts.get(row);
    };

    // Whether a row is of what the controls say: a whole name of a request is that request, and other words are searched.
    const wanted = () => {
        const typed = search.value.trim();
        const words = typed.toLowerCase().split(/\s+/).filter(word => word);
        const isOfText = requests.has(typed) ? row => row.dataset.r === typed : row => words.every(word => textOf(row).includes(word));
        return row =>
            (session.value === "" || row.dataset.s === session.value) && (!findings.checked || row.dataset.f !== undefined) && isOfText(row);
    };

    // A section that is not seen has no rows drawn, so its height is told by how many it shows.
    const filter = () => {
        const isWanted = wanted();
        let shown = 0;
        for (const { section, rows } of sections) {
            let count = 0;
            for (const row of rows) {
                const isShown = isWanted(row);
                if (row.hidden === isShown) row.hidden = !isShown;
                if (isShown) count++;
            }
            section.hidden = count === 0;
            section.style.containIntrinsicHeight = `calc(${count} * var(--row))`;
            shown += count;
        }
        control("shown").textContent = `${shown} of ${total} rows`;
        remember();
    };

    // A link to the page leads to what it shows. Where a browser refuses to change the address, the filter works all the same.
    const remember = () => {
        try {
            history.replaceState(null, "", search.value === "" ? location.pathname : "#" + encodeURIComponent(search.value));
        } catch (_) {}
    };

    let here = null;
    const goOn = () => {
        const found = [...document.querySelectorAll(".row[data-f]:not([hidden])")];
        if (here) here.classList.remove("here");
        here = found[found.indexOf(here) + 1] || found[0] || null;
        if (!here) return;
        here.classList.add("here");
        here.scrollIntoView({ block: "center" });
    };

    for (const it of [search, session, findings]) it.addEventListener("input", filter);
    control("next").addEventListener("click", goOn);
    control("next").disabled = document.querySelector(".row[data-f]") === null;
    for (const it of document.querySelectorAll("button.fd")) {
        it.addEventListener("click", () => {
            search.value = it.textContent;
            filter();
        });
    }
    const asked = location.hash.slice(1);
    try {
        search.value = decodeURIComponent(asked);
    } catch (_) {
        search.value = asked;
    }
    filter();
});
