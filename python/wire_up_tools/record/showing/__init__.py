"""Shows races in the program itself: runs it again, and holds one of two calls back until the other
is over, and then the other way round."""
