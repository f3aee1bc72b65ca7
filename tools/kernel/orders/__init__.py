"""All orders of steps of small machines of the run lock: the text of the steps, the search, and what is made of an order."""
