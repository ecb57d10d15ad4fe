"""The style sheet of pages and pictures. What differs in colour also differs in dash, shape or words."""

SHEET = """
.paper{fill:#fff} text{font:11px ui-monospace,'DejaVu Sans Mono',Menlo,Consolas,monospace;fill:#222}
.axis{paint-order:stroke;stroke:#fff;stroke-width:3px}
.host{font:bold 16px system-ui,'DejaVu Sans',sans-serif} .time{fill:#666;font-weight:bold} .dim,.time,.axis{fill:#666}
.lane{stroke:#888;stroke-width:1.5} .rule{stroke:#ddd} .grid{stroke:#eee}
.call{fill:#124} .poll{fill:#555} .state{fill:#060;font-weight:bold} .timer{fill:#850} .why{fill:#850} .end{fill:#850;font-weight:bold}
.refused{fill:#b11;font-weight:bold}
.label{fill:#135;paint-order:stroke;stroke:#fff;stroke-width:3px} .note{paint-order:stroke;stroke:#fff;stroke-width:3px}
text.lost,tspan.lost,text.damaged{fill:#b11;font-weight:bold} text.again,tspan.again{fill:#850} text.noise{fill:#666} tspan.dim{fill:#666}
.arrow{stroke:#246;stroke-width:1.2;fill:none} .head{fill:#246} .cross{fill:none;stroke:#c11;stroke-width:2.5}
.arrow.lost{stroke:#c11;stroke-width:1.6} .arrow.again,.arrow.late{stroke:#a60;stroke-dasharray:6 3} .head.again,.head.late{fill:#a60}
.arrow.damaged{stroke:#c11;stroke-width:3} .head.damaged{fill:#c11} .arrow.noise{stroke:#777;stroke-dasharray:2 3} .head.noise{fill:#777}
.arrow.cut{stroke:#246;stroke-dasharray:10 3} .arrow.waits,.head.waits{opacity:.45}
.wait{stroke:#d90;stroke-width:2} .wait.unanswered{stroke-dasharray:2 4}
.bar{stroke-width:3;stroke:#246} .bar.lost{stroke:#c11;stroke-dasharray:3 2} .bar.again{stroke:#a60} .bar.gone{stroke-dasharray:3 2}
.acked{fill:none;stroke:#282;stroke-width:1.5} .allowed{fill:none;stroke:#28c;stroke-dasharray:5 3} .sack{stroke:#a2a;stroke-width:3}
.reset{stroke:#c11;stroke-width:2}
"""

PAGE = """
body{font:14px/1.45 system-ui,sans-serif;margin:16px;color:#222;background:#fff} h1{font-size:20px} h2{font-size:16px;margin-top:28px}
td,th{font:11px ui-monospace,monospace;padding:1px 8px;vertical-align:top;text-align:left} code{word-break:break-all;color:#555}
svg{display:block;max-width:none} li,p{overflow-wrap:anywhere} .bad{color:#b11;font-weight:bold} ul{padding-left:20px} p,ul{max-width:1100px}
"""
