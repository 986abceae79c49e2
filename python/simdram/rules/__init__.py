"""The rules of texts: the first fault of each kind of file, why instructions are refused, and what verdicts mean."""
