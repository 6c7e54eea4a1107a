// SPDX-License-Identifier: Apache-2.0 OR MIT
// A program whose only library is that of the language: it has no `URL` and no streams.
import { type Event, faultText, load } from "../pulleynavy.js";

export async function kinds(bytes: Uint8Array): Promise<string[]> {
    const { parse, Parser, strip } = await load(bytes);
    const events: readonly Event[] = [...parse(bytes), ...new Parser().push(bytes)], stripped = strip(bytes);
    return events.map(event => (event.kind === "fault" ? faultText(event) : event.kind)).concat(`${stripped.bytes?.length}`);
}
