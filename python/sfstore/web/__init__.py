"""An editor in the browser: ``sfstore-web PATH`` serves a page over a store's file.

One thread owns the store (`keeper`). Second programs with the same content answer what may take
long (`mirror`). Pages speak to both by the calls of `calls` over `server`. What the page does, and how
it is guarded, is in docs/use/PAGE.md of the project.
"""
