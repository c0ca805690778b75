// The page's elements by their ids, and nodes made of texts.

/**
 * The element of an id, of a class of elements.
 * @template {HTMLElement} T
 * @param {string} id
 * @param {new () => T} kind
 * @returns {T}
 */
export function element(id, kind) {
  const found = document.getElementById(id);
  if (!(found instanceof kind)) throw new Error(`no ${kind.name} ${id}`);
  return found;
}

/**
 * An element of any class.
 * @param {string} id
 */
export const any = (id) => element(id, HTMLElement);
/**
 * An input.
 * @param {string} id
 */
export const input = (id) => element(id, HTMLInputElement);
/**
 * A select.
 * @param {string} id
 */
export const select = (id) => element(id, HTMLSelectElement);
/**
 * A button.
 * @param {string} id
 */
export const button = (id) => element(id, HTMLButtonElement);
/**
 * A canvas.
 * @param {string} id
 */
export const canvas = (id) => element(id, HTMLCanvasElement);

/**
 * A new element with what is in it.
 * @param {string} tag
 * @param {Record<string, string>} [attributes]
 * @param {...(Node | string)} children
 */
export function make(tag, attributes = {}, ...children) {
  const result = document.createElement(tag);
  for (const [name, value] of Object.entries(attributes)) result.setAttribute(name, value);
  result.append(...children);
  return result;
}

/**
 * A new mark in a colour of the page's style. The page's policy takes no style as an attribute.
 * @param {string} name that of the colour's custom property, without `--`
 * @param {Record<string, string>} [attributes]
 */
export function coloured(name, attributes) {
  const result = make('i', attributes);
  result.style.background = `var(--${name})`;
  return result;
}

/**
 * Gives a select these options, where they aren't its own already. The one that is chosen stays.
 * @param {HTMLSelectElement} target
 * @param {[string, string][]} options the value and the text of each
 */
export function setOptions(target, options) {
  const key = JSON.stringify(options), { value } = target;
  if (target.dataset.options === key) return;
  target.dataset.options = key;
  target.replaceChildren(...options.map(([name, text]) => new Option(text, name)));
  if (options.some((it) => it[0] === value)) target.value = value;
}
