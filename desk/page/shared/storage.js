// What the browser keeps through a reload, as JSON: in "sessionStorage" for a tab, in "localStorage" for all its windows.
// Without storage it is gone with the page.

export const readKept = (storage, key) => parsed(() => window[storage].getItem(key)) ?? null;

// The JSON that is got so; undefined where there is none.
export function parsed(get) {
  try {
    return JSON.parse(get());
  } catch {
    return undefined;
  }
}

// Keeps the value; null takes away what was kept.
export function keepIn(storage, key, value) {
  try {
    if (value === null) window[storage].removeItem(key);
    else window[storage].setItem(key, JSON.stringify(value));
  } catch { /* as above */ }
}

export function keptKeys(storage) {
  try {
    return Object.keys(window[storage]);
  } catch {
    return [];
  }
}
