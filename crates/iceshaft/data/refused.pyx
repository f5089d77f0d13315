(rdf:RDF
Axmlns:rdf http://www.w3.org/1999/02/22-rdf-syntax-ns#
Axmlns:dc http://purl.org/dc/elements/1.1/
(rdf:Description
Ardf:about 0418.jpg
(dc:title
-The line before the refusal
)dc:title
-text between properties
)rdf:Description
)rdf:RDF
