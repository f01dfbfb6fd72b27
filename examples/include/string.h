/* the language has none of its functions: write the loops, as docs/converting.md does */
