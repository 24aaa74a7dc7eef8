// Elements of the page. Texts are put in as texts, so that no name can be more than a name.

export const byId = name => document.getElementById(name);

// An element with attributes and what is in it: texts and elements.
export function made(name, attributes = {}, ...inside) {
  const element = document.createElement(name);
  for (const [key, value] of Object.entries(attributes)) {
    if (key.startsWith("on")) element.addEventListener(key.slice(2), value);
    else if (value === true) element.setAttribute(key, "");
    else if (value !== false && value != null) element.setAttribute(key, value);
  }
  element.append(...inside.filter(part => part != null));
  return element;
}
