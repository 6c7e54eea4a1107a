import sys
import pulleynavy

with open(sys.argv[1], "rb") as file:
    for event in pulleynavy.events(file):
        if event.kind.name == "SECTION" and event.id in (2, 7):
            print("section", event.id, event.start, event.end, event.count)
