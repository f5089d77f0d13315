(rdf:Description
Axmlns:rdf http://www.w3.org/1999/02/22-rdf-syntax-ns#
Axmlns:dc http://purl.org/dc/elements/1.1/
Ardf:ID cover
(dc:creator
Ardf:parseType Resource
(dc:title
-The same rdf:ID and the same label, in a document of its own
)dc:title
)dc:creator
)rdf:Description
