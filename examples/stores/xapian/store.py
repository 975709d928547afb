#!/usr/bin/python3
"""Stores pairs of words by Xapian, each as a document that is committed, and acknowledges each; or
prints all."""

import sys

import xapian

words = sys.argv[1:]
database = xapian.WritableDatabase('index', xapian.DB_CREATE_OR_OPEN)
if words == ['all']:
    for item in database.postlist(''):
        document = database.get_document(item.docid)
        (term,) = [one.term.decode() for one in document.termlist()]
        print(term, document.get_data().decode())
else:
    for key, value in zip(words[::2], words[1::2]):
        document = xapian.Document()
        document.set_data(value)
        document.add_term(key)
        database.add_document(document)
        database.commit()
        print(key, value, flush=True)
database.close()
