?xpacket begin="" id="W5M0MpCehiHzreSzNTczkc9d"
(rdf:RDF
Axmlns:rdf http://www.w3.org/1999/02/22-rdf-syntax-ns#
Axml:base http://pictures.example/2026/11/14/0417.jpg
-\n  
(rdf:Description
Ardf:about 
Axmlns:dc http://purl.org/dc/elements/1.1/
Axmlns:xmp http://ns.adobe.com/xap/1.0/
Axmlns:xmpRights http://ns.adobe.com/xap/1.0/rights/
Axmlns:photoshop http://ns.adobe.com/photoshop/1.0/
Axmlns:Iptc4xmpCore http://iptc.org/std/Iptc4xmpCore/1.0/xmlns/
Axmp:CreateDate 2026-11-14T22:41:07+01:00
Axmp:Rating 4
Aphotoshop:Credit Nordlicht Bild / Åsa Lindqvist
Aphotoshop:City Gåsedal
-\n    
(dc:creator
-\n      
(rdf:Seq
-\n        
(rdf:li
-Åsa Lindqvist
)rdf:li
-\n        
(rdf:li
-Jean-Luc "JL" Müller
)rdf:li
-\n      
)rdf:Seq
-\n    
)dc:creator
-\n    
(dc:title
-\n      
(rdf:Alt
-\n        
(rdf:li
Axml:lang x-default
-Ice shaft on the glacier above Gåsedal
)rdf:li
-\n        
(rdf:li
Axml:lang en-GB
-Ice shaft on the glacier above Gåsedal
)rdf:li
-\n        
(rdf:li
Axml:lang de
-Eisschacht am Gletscher über Gåsedal
)rdf:li
-\n        
(rdf:li
Axml:lang no
-Isbrønn på breen ovenfor Gåsedal
)rdf:li
-\n      
)rdf:Alt
-\n    
)dc:title
-\n    
(dc:description
-\n      
(rdf:Alt
-\n        
(rdf:li
Axml:lang x-default
-A rescue team lowers a lamp into the shaft.\nFourth picture of nine; captions in C:\\night\\0417.txt
)rdf:li
-\n      
)rdf:Alt
-\n    
)dc:description
-\n    
(dc:subject
-\n      
(rdf:Bag
-\n        
(rdf:li
-glacier
)rdf:li
-\n        
(rdf:li
-rescue
)rdf:li
-\n        
(rdf:li
-night
)rdf:li
-\n      
)rdf:Bag
-\n    
)dc:subject
-\n    
(xmp:ModifyDate
Ardf:datatype http://www.w3.org/2001/XMLSchema#dateTime
-2026-11-15T03:12:55+01:00
)xmp:ModifyDate
-\n    
(xmpRights:WebStatement
Ardf:resource /terms?agency=nordlicht&id=0417
)xmpRights:WebStatement
-\n    
(xmpRights:Marked
-True
)xmpRights:Marked
-\n    
(Iptc4xmpCore:CreatorContactInfo
Ardf:parseType Resource
-\n      
(Iptc4xmpCore:CiEmailWork
-desk@nordlicht.example
)Iptc4xmpCore:CiEmailWork
-\n      
(Iptc4xmpCore:CiAdrCtry
Axml:lang en
-Norway
)Iptc4xmpCore:CiAdrCtry
-\n    
)Iptc4xmpCore:CreatorContactInfo
-\n  
)rdf:Description
-\n
)rdf:RDF
?xpacket end="w"
