"""Maps of other formats to stores and back, by GDAL/OGR.

`sfstore.exchange.importing` is the command ``sfstore-import``, `sfstore.exchange.exporting` is
``sfstore-export``. docs/use/EXCHANGE.md of the project has a day with both.
"""
