"""The front end of drcp for MiniZinc: convenience alone, since every claim can be checked by `drcp check` again."""

VERSION = "1.0"
