import { load, type Event } from "pulleynavy";

const { parse } = await load();
const events: Event[] = [...parse(new Uint8Array(8))];
export const names: string[] = [];
for (const event of events) if (event.kind === "section") for (const item of event.items) if (item.kind === "export") names.push(item.name);
