"""The page's style sheet and its script. All shapes and words come from the generator: the script only selects,
hides, filters and scrolls."""
from __future__ import annotations

LIGHT = {
    "back": "#ffffff", "text": "#1c1c1c", "faint": "#6b6b6b", "rule": "#d9d9d9",
    "ready": "#a9d8a5", "wants": "#f3b562", "waits": "#f3dc8e", "grey": "#cfcfcf", "rose": "#eeb0b8", "pale": "#ececec",
    "out": "#b9d9ee", "blue": "#2f6db3", "red": "#c0272d", "plum": "#8e3b80", "violet": "#6a4fb3",
    "ochre": "#a06a00", "green": "#1f7a3a", "life": "#48505c",
}
DARK = {
    "back": "#16181c", "text": "#e8e8e8", "faint": "#a2a2a8", "rule": "#34373d",
    "ready": "#2f6b3a", "wants": "#9a6417", "waits": "#7b6a22", "grey": "#4b4e55", "rose": "#84404b", "pale": "#2b2d32",
    "out": "#2d587a", "blue": "#6aa5e6", "red": "#ef6a6f", "plum": "#b765aa", "violet": "#8f78d8",
    "ochre": "#e0ac45", "green": "#5fc27a", "life": "#b4bcc8",
}

SHAPES = """
svg{display:block;font:10px system-ui,sans-serif}
text{fill:var(--text)}
.ready{fill:var(--ready)}.wants{fill:var(--wants)}.waits{fill:var(--waits)}
.unknown{fill:var(--waits);stroke:var(--text);stroke-dasharray:1 3}
.suspended{fill:var(--grey);stroke:var(--faint);stroke-dasharray:5 3}
.out{fill:var(--out);stroke:var(--blue);stroke-dasharray:2 2}
.doomed{fill:var(--rose)}.cleaned{fill:var(--pale)}.idle{fill:var(--ready)}.bar{stroke:var(--text);stroke-width:3}
.s{font-size:9.5px;text-anchor:middle}.l{font-size:9.5px;fill:var(--faint)}.c{font-size:9px;text-anchor:middle}
.k.fast{fill:var(--green)}.k.mutex{fill:var(--ochre)}.k.critical{fill:var(--text)}.k.noted{fill:var(--plum)}
.c1,.c2,.c3,.c4,.c5,.c6,.kept,.gone,.queued,.taken{stroke:var(--life);fill:none}
.c1{stroke-width:1}.c2{stroke-width:2}.c3{stroke-width:3}.c4{stroke-width:4}.c5{stroke-width:5}.c6{stroke-width:6}
.kept{stroke:var(--blue);stroke-width:3;stroke-dasharray:8 3}.gone{stroke-dasharray:1 4;stroke-width:2}
.x{stroke:var(--red);stroke-width:2.5;fill:none}.o{fill:var(--back);stroke:var(--life)}
.queued{stroke:var(--blue);stroke-width:2;stroke-dasharray:4 3}.taken{stroke:var(--blue);stroke-width:4}
circle.m,path.m{fill:var(--blue);stroke:var(--blue);stroke-width:2}rect.m{fill:var(--back);stroke:var(--blue)}
.b{stroke:none}path.plain{fill:#2f6db3}path.bad{fill:#c0272d}path.owed{fill:#6f6f74}
path.b.death{fill:#8e3b80}path.b.call{fill:#6a4fb3}text.b{fill:#fff;text-anchor:middle}
.a{fill:none;stroke-width:1.6}.a.message{stroke:var(--blue)}.a.signal{stroke:var(--ochre)}.a.mutex{stroke:var(--green)}
.a.call{stroke:var(--violet)}.a.death{stroke:var(--plum)}.a.thread{stroke:var(--faint)}
.h.message{fill:var(--blue)}.h.signal{fill:var(--ochre)}.h.mutex{fill:var(--green)}.h.call{fill:var(--violet)}
.h.death{fill:var(--plum)}.h.thread{fill:var(--faint)}
.t{font-size:9.5px;paint-order:stroke;stroke:var(--back);stroke-width:2.5px}
.tick,.rest{stroke:var(--faint);stroke-dasharray:7 4;fill:none}.rest{stroke-dasharray:1 4}
.p{font:11px ui-monospace,monospace;white-space:pre}.i{font:11px ui-monospace,monospace;fill:var(--faint)}
.e{fill:var(--faint)}path.wrong{stroke:var(--red);stroke-width:2;fill:none}text.wrong{fill:var(--red)}
.w{font-weight:600}.line{stroke:var(--rule);fill:none}
"""

PAGE = """
html{color-scheme:light dark}
body{margin:0 0 5.5em;background:var(--back);color:var(--text);font:14px system-ui,sans-serif}
header,footer{padding:.4em 12px}h1{font-size:1.2em;margin:.3em 0}header p{margin:.3em 0;max-width:72em}
table{border-collapse:collapse}td,th{padding:0;text-align:left}
thead th{position:sticky;top:0;z-index:2;background:var(--back)}
.block{content-visibility:auto}.r>use{fill:transparent;stroke:none;pointer-events:all}.r:hover>use{stroke:var(--rule)}
.r.on>use{stroke:var(--red);stroke-width:2}.r.dim{opacity:.15}.n{cursor:pointer}.n.on{fill:var(--red);font-weight:700}
.cover{fill:var(--back)}.hiding #left,.hiding #over,.hiding .found{visibility:hidden}
#panel{position:fixed;left:0;right:0;bottom:0;min-height:4.2em;padding:.4em 12px;background:var(--back);
border-top:2px solid var(--rule);margin:0;font:13px system-ui,sans-serif;white-space:pre-wrap}
#over{position:fixed;right:0;top:0;height:calc(100vh - 5.5em);width:70px;background:var(--back);
border-left:1px solid var(--rule);cursor:pointer}
.over{padding-right:78px}.found{color:var(--red)}pre{font:12px ui-monospace,monospace}
.key{font-size:12px}.key span{display:inline-block;padding:0 .5em;margin:.1em}
@media print{@page{size:A4 landscape;margin:9mm}body{margin:0}#panel,#over,.key summary{display:none}
thead{display:table-header-group}thead th{position:static}tr{break-inside:avoid}.block{content-visibility:visible}
*{-webkit-print-color-adjust:exact;print-color-adjust:exact}table svg{width:var(--paper);height:auto}
.block{width:auto!important;height:auto!important;contain-intrinsic-size:none!important}
header,footer{padding:0}header{font-size:11px}header p{max-width:none}h1{font-size:14px}.key{font-size:10px}
.over{padding:0}}
"""

SCRIPT = """
(() => {
const rows = [...document.querySelectorAll('.r')], covers = [...document.querySelectorAll('.cover')];
const panel = document.getElementById('panel'), over = document.getElementById('over');
const names = document.querySelectorAll('.n');
const asked = panel.textContent, place = it => +it.id.slice(1);
let at = -1, hides = false, only = '';
const text = it => it.firstElementChild.textContent.split('\\n\\n');
const draw = scroll => {
  rows.forEach((it, k) => it.classList.toggle('on', k === at));
  const seen = hides ? (at + 1) * ROW : Infinity;
  covers.forEach((it, k) => it.setAttribute('y', Math.max(0, Math.min(BLOCK * ROW, seen - k * BLOCK * ROW))));
  document.body.classList.toggle('hiding', hides);
  const it = rows[at], parts = it ? text(it) : [];
  panel.textContent = it ? parts[0].split('\\n')[0] + '\\n' + parts[1] : asked;
  if (it && scroll) {
    it.closest('.block').scrollIntoView({block: 'nearest'});
    it.scrollIntoView({block: 'center', inline: 'nearest'});
  }
  history.replaceState(null, '', it ? '#' + it.id + (hides ? ',h' : '') : location.pathname + location.search);
};
const go = k => { at = Math.max(0, Math.min(rows.length - 1, k)); draw(true); };
const filter = key => {
  only = only === key ? '' : key;
  rows.forEach(it => it.classList.toggle('dim', only && !(' ' + it.dataset.k + ' ').includes(' ' + only + ' ')));
  names.forEach(it => it.classList.toggle('on', it.dataset.k === only));
};
const open = () => {
  const it = /^#e(\\d+)(,h)?$/.exec(location.hash);
  if (it) hides = !!it[2], go(rows.findLastIndex(row => place(row) <= +it[1]));
};
const keys = {ArrowDown: () => go(at + 1), ArrowUp: () => go(at - 1), Home: () => go(0), End: () => go(rows.length - 1),
  h: () => { hides = !hides; if (at < 0) at = 0; draw(true); },
  Escape: () => { at = -1; hides = false; only = ''; filter(''); draw(); }};
addEventListener('keydown', it => {
  if (!keys[it.key] || it.ctrlKey || it.altKey || it.metaKey) return;
  it.preventDefault();
  keys[it.key]();
});
addEventListener('click', it => {
  const name = it.target.closest('.n'), row = it.target.closest('.r');
  if (name) filter(name.dataset.k); else if (row) at = rows.indexOf(row), draw();
});
if (over) over.onclick = it => {
  const box = over.getBoundingClientRect();
  go(Math.floor((it.clientY - box.top) / box.height * rows.length));
};
addEventListener('hashchange', open);
open();
})();
"""


def variables(colours: dict[str, str]) -> str:
    """Colours as variables of a style sheet."""
    return "".join(f"--{name}:{value};" for name, value in colours.items())


def sheet(paper: str, small: bool = False) -> str:
    """The style sheet; `paper` is how wide the pictures are on paper, and a small picture stands for itself."""
    root = "svg" if small else ":root"
    dark = f"@media (prefers-color-scheme:dark){{{root}{{{variables(DARK)}}}}}"
    light = f"@media print{{{root}{{{variables(LIGHT)}}}}}"
    page = "" if small else PAGE
    return f"{root}{{{variables(LIGHT)}--paper:{paper}}}\n{dark}\n{light}\n{SHAPES}{page}"


def script(row: int, block: int) -> str:
    """The page's script, with the height of a row and the rows of a block."""
    return SCRIPT.replace("BLOCK", str(block)).replace("ROW", str(row))
