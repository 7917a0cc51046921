// Texts as HTML. Nothing here knows of the page.

export const escaped = text => text.replace(/[&<>"]/g, sign => ({ "&": "&amp;", "<": "&lt;", ">": "&gt;", '"': "&quot;" })[sign]);

// A number of things.
export const counted = (number, what) => `${number} ${what}${number === 1 ? "" : "s"}`;

// A list's items.
export const itemsOf = lines => lines.map(it => `<li>${escaped(it)}</li>`).join("");

export const coded = text => `<code>${escaped(text)}</code>`;

export const told = (text, kind) => `<span class="${kind}">${escaped(text)}</span>`;
