"""Small models of memories whose clients and managers answer early, with the rules between links that judge them."""
