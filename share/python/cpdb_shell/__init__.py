"""`cpdb shell`: a session at the terminal. Its manual page is cpdb-shell(1).

A line that is typed goes this way: `text` cuts it into statements; `reading` has each of them read by a `scratch` beside
the session, so that a mistyped one is never sent; `talk` sends them, and keeps count of the open transaction; `layout`
sets the answers out. `own` has the statements that the shell adds, `completion` what can be typed next, `mirror` the
labels for it, `terminal` the lines and their history, and `shell` puts these together.
"""
