"""A tie line joins the circuits of two gateways at two sites and passes calls on."""
