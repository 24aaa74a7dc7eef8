// Asks the service, and tells why where it has no answer.

export class Trouble extends Error {}

const words = fields => new URLSearchParams(fields).toString();

// The address of a request, such as answer?from=..
export const address = (path, fields) => `${path}?${words(fields)}`;

async function fetched(path, init) {
  try {
    return await fetch(path, init);
  } catch (error) {
    if (error.name === "AbortError") throw error;
    throw new Trouble("The service can't be reached.");
  }
}

// What the service says to a request, with refusals of the planner; other faults are thrown.
export async function ask(path, fields, signal) {
  const response = await fetched(fields ? address(path, fields) : path, { signal });
  let told;
  try {
    told = await response.json();
  } catch (error) {
    if (error.name === "AbortError") throw error;
    throw new Trouble(`The service said nothing that can be read (${response.status}).`);
  }
  if (told.kind === "error") throw new Trouble(told.reason);
  return told;
}
