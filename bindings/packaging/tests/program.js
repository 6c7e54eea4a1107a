import { readFileSync } from "node:fs";
import { load } from "pulleynavy";

const { parse } = await load();
for (const event of parse(readFileSync(process.argv[2])))
    if (event.kind === "section" && (event.id === 2 || event.id === 7)) console.log("section", event.id, event.start, event.end, event.count);
