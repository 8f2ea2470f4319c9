"""The authors' tool: the text of a site, its files, and what the cleaner says of them. docs/TEXT.md describes it."""
