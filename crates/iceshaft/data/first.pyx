(rdf:RDF
Axmlns:rdf http://www.w3.org/1999/02/22-rdf-syntax-ns#
Axmlns:dc http://purl.org/dc/elements/1.1/
(rdf:Description
Ardf:ID cover
(dc:title
-Harbour at night
)dc:title
(dc:creator
Ardf:parseType Resource
(dc:title
-Desk
)dc:title
)dc:creator
)rdf:Description
)rdf:RDF
