/** Elements of the page. */

/** Returns the element with an id. */
export function byId(id) {
  return document.getElementById(id);
}

/** Returns a new element with attributes and children, which are elements or texts. An attribute
 * that is `undefined` is left out. */
export function element(tag, attributes = {}, ...children) {
  const made = document.createElement(tag);
  for (const [name, value] of Object.entries(attributes)) {
    if (value !== undefined) {
      made.setAttribute(name, value);
    }
  }
  made.append(...children);
  return made;
}

/** Gives an element a text, and leaves it alone if it has it. */
export function setText(one, text) {
  if (one.textContent !== text) {
    one.textContent = text;
  }
}

/** Gives an element an attribute, and leaves it alone if it has it. Without a value, takes it
 * away. */
export function setAttribute(one, name, value) {
  if (value === undefined) {
    one.removeAttribute(name);
  } else if (one.getAttribute(name) !== value) {
    one.setAttribute(name, value);
  }
}

/** Returns the sign of a value, by its number, which a screen reader passes over. */
export function sign(value) {
  return element("span", { class: "sign", "data-value": String(value), "aria-hidden": "true" });
}

/** Returns a text in the typeface of code. */
export function code(text) {
  return element("code", {}, text);
}
