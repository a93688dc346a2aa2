"""What is drawn of captures: a deck that takes one way of those that it has, what a controller sends to it, what its sheet says,
and replies that are spoilt."""
