/* the language has none of its functions: write the comparisons */
