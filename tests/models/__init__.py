"""Second readers, models and references, written from the documents alone: tests hold the
programs to them."""
