# a comment at once
	start
 a # between tokens
;a=string(	"x"
)  ;# and at the end