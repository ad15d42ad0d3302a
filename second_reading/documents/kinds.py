"""The kinds of random run documents."""
from documents.atomic_documents import atomic_document
from documents.block_documents import document
from documents.great_documents import great_document
from documents.hit_documents import hit_document
from documents.positioned_documents import positioned_document
from documents.run_documents import run_document
from documents.sheet_documents import sheet_document
from documents.table_documents import table_document
from documents.text_documents import text_document
from documents.wild_documents import wild_document

# Documents to be laid out whole.
KINDS = {'blocks': document, 'texts': text_document, 'atomics': atomic_document, 'tables': table_document,
         'positions': positioned_document, 'sheets': sheet_document}

# Documents for editors, for points, for limits and for faults.
OTHER_KINDS = {'runs': run_document, 'hits': lambda seed, number: hit_document(seed, number)[0], 'great': great_document,
               'wild': wild_document}
