"""How a page looks: light or dark as the browser is, and in print."""

STYLE = """
:root{color-scheme:light dark;--paper:#fff;--card:#f6f7f8;--ink:#1b1d20;--soft:#565c63;\
--line:#c3c8ce;
--loud:#d55e00;--loud-ink:#9c4300;--quiet:#0072b2;--wait:#e69f00;--good:#00855c}
@media (prefers-color-scheme:dark){:root{--paper:#15171a;--card:#1e2125;--ink:#e6e8ea;\
--soft:#a3a9b0;--line:#454b52;
--loud:#ff8433;--loud-ink:#ff9d5c;--quiet:#56b4e9;--wait:#f0b429;--good:#2fbf8f}}
*{box-sizing:border-box}
body{margin:0 auto;padding:1rem;max-width:124rem;background:var(--paper);color:var(--ink);\
font:16px/1.5 system-ui,sans-serif;overflow-wrap:anywhere}
h1{font-size:1.5rem;line-height:1.25;margin:0}\
h2{font-size:1.15rem;line-height:1.3;margin:0 0 .6rem}h3{font-size:1rem;margin:.8rem 0 .3rem}\
p{margin:.4rem 0}
a{color:inherit;text-decoration-color:var(--quiet);text-underline-offset:2px}
code,pre,table,.mono{font-family:ui-monospace,Menlo,Consolas,"DejaVu Sans Mono",monospace;\
font-size:.875rem}
header,section{border:1px solid var(--line);border-radius:.5rem;padding:1rem;margin:0 auto 1rem;\
max-width:74rem;background:var(--card)}
section:has(.broad){max-width:none}
header{border-left:.5rem solid var(--good)}header.found{border-left-color:var(--loud)}
.top{display:flex;flex-wrap:wrap;gap:.5rem 1rem;justify-content:space-between;align-items:center}
.why{font-size:1rem;font-weight:400}
.badge{border:2px solid var(--good);border-radius:1rem;padding:.05rem .7rem;font-size:.875rem;\
font-weight:600;white-space:nowrap}
.found .badge{border-color:var(--loud);color:var(--loud-ink)}\
header:is(.waits,.fails,.partly){border-left-color:var(--wait)}\
:is(.waits,.fails,.partly) .badge{border-color:var(--wait)}
.meta,figcaption,.count{color:var(--soft);font-size:.875rem}\
.count{font-weight:400;white-space:nowrap}
table{border-collapse:collapse;margin:.4rem 0}
th,td{text-align:left;vertical-align:top;padding:.15rem 1.2rem .15rem 0;font-weight:400;\
white-space:nowrap}\
th,.around{color:var(--soft)}.around{display:block;white-space:normal}
@media (max-width:40rem){body{padding:.5rem}:is(header,section){padding:.6rem}\
tr:first-child{display:none}tr{display:block;margin-bottom:.5rem}\
td{display:block;padding:0}}
.wide{overflow-x:auto;max-width:100%;background:linear-gradient(90deg,var(--card) 40%,\
transparent) 0/3rem 100% no-repeat local,
linear-gradient(270deg,var(--card) 40%,transparent) 100%/3rem 100% no-repeat local,
linear-gradient(90deg,var(--soft),transparent) 0/.7rem 100% no-repeat scroll,\
linear-gradient(270deg,var(--soft),transparent) 100%/.7rem 100% no-repeat scroll}
.both{display:flex;flex-wrap:wrap;gap:.5rem 2rem;align-items:flex-start}\
.both>*{flex:0 1 auto;min-width:0;max-width:100%}.both>.runs{flex:1 1 18rem}
figure{margin:.5rem 0}figcaption span{display:flex;gap:.5rem;margin:.1rem 0}svg{display:block}\
.swatch{flex:none;margin-top:.3rem}
figcaption .hint{display:none}@media (max-width:30rem){figcaption .hint{display:block}}
.zoom{float:right}figure:has(.zoom :checked) .wide svg{zoom:1.6;max-width:none}
.runs{border-left:3px solid var(--line);padding-left:.8rem}.runs dl{margin:0}\
.runs dt{margin-top:.5rem;font-weight:600}.runs dd{margin:0}
.fix{border-left:3px solid var(--quiet);padding-left:.8rem}\
.fix ul{margin:.1rem 0;padding-left:1.2rem}\
.part{border-left:3px solid var(--loud);padding-left:.8rem}
details{margin:.5rem 0}summary{cursor:pointer}
pre{margin:.4rem 0;overflow-x:auto}\
.plan div{white-space:pre-wrap;padding-left:4rem;text-indent:-4rem}\
.plan div:target{background:var(--line)}
.plan b{display:inline-block;width:3.5rem;text-indent:0;text-align:right;margin-right:.5rem;\
color:var(--soft);font-weight:400;user-select:none}
.plan .named{font-weight:600}.plan .cut,.plan .said{color:var(--soft)}
.narrow{max-width:100%;height:auto}\
svg text{font:12px ui-monospace,Menlo,Consolas,"DejaVu Sans Mono",monospace;fill:var(--ink);
paint-order:stroke;stroke:var(--card);stroke-width:4px;stroke-linejoin:round}
svg .lane-name{font-weight:700}svg .lane-node,svg .gap{fill:var(--soft)}svg .gap{font-size:11px}\
svg .racing{font-weight:700}
.lane{stroke:var(--line);stroke-width:1.5}\
.bar{stroke:var(--quiet);stroke-width:5;stroke-linecap:round}.met{fill:var(--quiet)}
.dot{fill:var(--ink)}circle.unreached{fill:var(--card);stroke:var(--soft);stroke-width:1.5}\
svg text.unreached{fill:var(--soft)}.never{stroke-dasharray:3 3}
circle.racing{fill:var(--loud)}rect.waiting{fill:var(--wait);stroke:var(--ink)}
.arrow{fill:none;stroke:var(--ink);stroke-width:1.2}.tip{fill:var(--ink)}\
figure:has(style):has(.at:is(:hover,:focus-within)) :is(.at,.way){opacity:.25}\
.race{fill:none;stroke-linejoin:round;stroke:var(--loud);stroke-width:3.5;stroke-dasharray:7 5}
@media print{:root{--paper:#fff;--card:#fff;--ink:#000;--soft:#333;--line:#999;--loud:#000;\
--loud-ink:#000;--quiet:#000;--wait:#fff;--good:#000}
body{padding:0}.wide{overflow:visible;background:none}.zoom{display:none}\
svg:not(.swatch){max-width:100%;height:auto;max-height:16cm}\
:is(h1,h2,h3,dt){break-after:avoid}:is(figure,tr,.fix,header){break-inside:avoid}}
"""
