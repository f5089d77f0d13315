?xpacket begin="" id="W5M0MpCehiHzreSzNTczkc9d"
(x:xmpmeta
Axmlns:x adobe:ns:meta/
Ax:xmptk Nordlicht Ablage 2.6
-\n  
(rdf:RDF
Axmlns:rdf http://www.w3.org/1999/02/22-rdf-syntax-ns#
-\n    
(rdf:Description
Ardf:about 
Axmlns:xmp http://ns.adobe.com/xap/1.0/
Axmlns:photoshop http://ns.adobe.com/photoshop/1.0/
Axmlns:Iptc4xmpCore http://iptc.org/std/Iptc4xmpCore/1.0/xmlns/
Axmp:CreateDate 2026-11-17T05:12:44+01:00
Axmp:ModifyDate 2026-11-17T05:31:09+01:00
Aphotoshop:City Gåsedal
Aphotoshop:Credit Nordlicht Bild / Jorunn Tveit
-\n      
(Iptc4xmpCore:CreatorContactInfo
Ardf:parseType Resource
-\n        
(Iptc4xmpCore:CiEmailWork
-jorunn@nordlicht.example
)Iptc4xmpCore:CiEmailWork
-\n        
(Iptc4xmpCore:CiAdrCity
-Gåsedal
)Iptc4xmpCore:CiAdrCity
-\n        
(Iptc4xmpCore:CiAdrCtry
Axml:lang en
-Norway
)Iptc4xmpCore:CiAdrCtry
-\n      
)Iptc4xmpCore:CreatorContactInfo
-\n    
)rdf:Description
-\n    
(rdf:Description
Ardf:about 
Axmlns:dc http://purl.org/dc/elements/1.1/
-\n      
(dc:format
-image/jpeg
)dc:format
-\n      
(dc:title
-\n        
(rdf:Alt
-\n          
(rdf:li
Axml:lang x-default
-First ferry in the ice
)rdf:li
-\n          
(rdf:li
Axml:lang de
-Erste Fähre im Eis
)rdf:li
-\n        
)rdf:Alt
-\n      
)dc:title
-\n      
(dc:description
-\n        
(rdf:Alt
-\n          
(rdf:li
Axml:lang x-default
-The ferry "Havørn" breaks the harbour ice at Gåsedal before dawn.
)rdf:li
-\n          
(rdf:li
Axml:lang de
-Die Fähre "Havørn" bricht vor Tagesanbruch das Eis im Hafen von Gåsedal.
)rdf:li
-\n        
)rdf:Alt
-\n      
)dc:description
-\n      
(dc:creator
-\n        
(rdf:Seq
-\n          
(rdf:li
-Jorunn Tveit
)rdf:li
-\n          
(rdf:li
-Åsa Lindqvist
)rdf:li
-\n        
)rdf:Seq
-\n      
)dc:creator
-\n      
(dc:subject
-\n        
(rdf:Bag
-\n          
(rdf:li
-ferry
)rdf:li
-\n          
(rdf:li
-harbour
)rdf:li
-\n          
(rdf:li
-ice
)rdf:li
-\n        
)rdf:Bag
-\n      
)dc:subject
-\n    
)rdf:Description
-\n  
)rdf:RDF
-\n
)x:xmpmeta
?xpacket end="w"
