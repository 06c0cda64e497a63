"""The page of a store: what the program answers of each place, written into one HTML file.

`answers` asks the program, `columns` puts the answers into columns of numbers and texts, `document` puts these and the files
of share/page together. `cpdb page` (bin/cpdb-page) is the command.
"""
from .answers import Answers, Disagreement, collect
from .columns import columns_of
from .document import MARK, document_of

__all__ = ["Answers", "Disagreement", "MARK", "collect", "columns_of", "document_of"]
