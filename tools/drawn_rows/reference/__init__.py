"""The reference: the value of each definition in whole numbers. It stands on the specification of
this project, which docs/FORMATS.md tells, and on IS-GPS-200, and on no text of a definition: where
a definition recurses it counts, and where one looks for the least it goes on step by step."""
