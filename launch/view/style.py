"""How a page looks, in light and dark, wide and narrow."""

STYLE = """
:root { color-scheme: light dark; --line: light-dark(#d5d5d5, #444); --soft: light-dark(#f4f4f2, #262626);
 --paper: light-dark(#fff, #181818); --ink: light-dark(#1b1b1b, #e6e6e6); --yes: light-dark(#2f7d4f, #62b985);
 --no: light-dark(#9b3d3d, #d98080); --wait: light-dark(#6a6a6a, #9a9a9a); }
* { box-sizing: border-box; }
body { font: 16px/1.5 system-ui, sans-serif; color: var(--ink); background: var(--paper); margin: 0 auto; padding: 1.5rem;
 max-width: 80rem; overflow-wrap: break-word; }
h1 { font-size: 1.4rem; margin: 0 0 1rem; } h2 { font-size: 1.2rem; margin: 2rem 0 .5rem; }
h3 { font-size: 1rem; margin: 1.5rem 0 .5rem; } h4 { font-size: .8125rem; font-weight: 600; margin: 0; color: var(--wait); }
p { margin: .25rem 0; max-width: 45rem; } .end { font-size: 1.15rem; font-weight: 600; }
section { border-top: 1px solid var(--line); padding: 1rem 0; } a { color: inherit; }
table { border-collapse: collapse; } th { text-align: left; font-weight: 500; }
.parts { margin-bottom: 1rem; } .parts th { white-space: nowrap; }
.parts th, .parts td { padding: .15rem .75rem .15rem 0; vertical-align: top; } .parts td { overflow-wrap: anywhere; }
code { overflow-wrap: anywhere; font-size: .8125rem; }
pre { background: var(--soft); padding: 1rem; overflow: auto; font-size: .8125rem; }
.bars { width: 100%; max-width: 45rem; }
.bars th, .bars td { padding: .15rem .75rem .15rem 0; white-space: nowrap; vertical-align: middle; }
.bars .n { text-align: right; font-variant-numeric: tabular-nums; } .bars .bar { width: 60%; }
.bar i { display: block; height: .7rem; min-width: 1px; background: var(--wait); }
.is-refuted .bar i { background: var(--no); } .is-plan .bar i { background: var(--yes); }
.is-plan td:nth-child(2), .key .is-plan { color: var(--yes); }
.is-refuted td:nth-child(2), .key .is-refuted { color: var(--no); }
.key span { margin-left: .5rem; font-weight: 600; color: var(--wait); }
.curve { display: block; width: 100%; max-width: 45rem; } .curve polyline { fill: none; stroke: var(--line); stroke-width: 1.5; }
.curve .axis { stroke: var(--line); }
.curve circle { fill: var(--wait); } .curve circle.is-refuted { fill: var(--no); }
.curve circle.is-plan { fill: var(--yes); }
.ends { display: flex; justify-content: space-between; max-width: 45rem; font-size: .8125rem; color: var(--wait); }
.beside { display: grid; grid-template-columns: minmax(15rem, 22rem) minmax(0, 1fr); gap: 1.5rem; align-items: start; }
.steps { list-style: none; margin: 0; padding: 0; max-height: 80vh; overflow: auto; border: 1px solid var(--line); }
.steps li { padding: .4rem .6rem; border-bottom: 1px solid var(--line); font-size: .875rem; } .steps li:last-child { border: 0; }
.steps p { color: var(--wait); } .makes code { display: inline-block; margin-right: .35rem; color: var(--wait); }
.makes em { font-style: normal; font-weight: 600; font-size: .8125rem; }
.scroll { overflow: auto; max-height: 80vh; border: 1px solid var(--line); }
table.plan th, table.plan td { border: 1px solid var(--line); padding: .25rem .5rem; vertical-align: top; }
table.plan { font-size: .875rem; }
table.plan thead th { position: sticky; top: 0; background: var(--soft); z-index: 1; white-space: nowrap; }
table.plan tbody th { position: sticky; left: 0; background: var(--soft); }
table.plan tbody th { overflow-wrap: break-word; min-width: 6rem; max-width: 9rem; }
table.plan .corner { left: 0; z-index: 2; } table.plan td { min-width: 5rem; } table.plan td div { white-space: nowrap; }
table.plan span { color: var(--wait); } table.plan .gap { min-width: 0; background: var(--soft); }
.small:checked ~ .scroll td { min-width: 0; padding: 0 .1rem; font-size: 0; }
.small:checked ~ .scroll td div { display: inline-block; width: .6rem; height: .6rem; margin: .1rem; background: var(--name); }
.small:checked ~ .scroll td summary { display: none; }
b { font-weight: 600; color: var(--name); } .legend span { margin-right: .75rem; white-space: nowrap; }
.c0 { --name: light-dark(#1f6f43, #6cc492); } .c1 { --name: light-dark(#2559a8, #86b0f0); }
.c2 { --name: light-dark(#9a4a00, #e8a15c); } .c3 { --name: light-dark(#7b2f8f, #cf92e0); }
.c4 { --name: light-dark(#a02c3c, #ee8d98); } .c5 { --name: light-dark(#00696f, #5fc3c9); }
.c6 { --name: light-dark(#6b5d00, #cdbb4f); } .c7 { --name: light-dark(#4d4a9e, #a7a4f0); }
.c8 { --name: light-dark(#96307a, #e78fc9); } .c9 { --name: light-dark(#4f6416, #a9c266); }
footer { border-top: 1px solid var(--line); margin-top: 1rem; padding-top: 1rem; font-size: .875rem; }
@media (max-width: 44rem) { body { padding: 1rem; } .beside { display: block; } .table { display: none; }
 .steps { max-height: none; } .bars .bar { width: 40%; } }
"""
