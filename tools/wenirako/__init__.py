"""The front door: questions about a cluster's policies, asked of policyd, and their answers in several forms.

`main` reads the command line, and each question is a module: `diffing`, `listing`, `why`, `lint`, `check`, `replay` and
`play`. Those about connections ask through `halves`, which asks `core`, and no module but that one knows what judges
packets. The objects of a cluster are read by recipes/lib.
"""
