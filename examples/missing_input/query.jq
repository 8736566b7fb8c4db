(: a (: b :) c :) json-lines( "a" )
