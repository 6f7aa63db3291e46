\ The usual model in one level of examples/one-toll.npp. T is the toll, x says whether a commodity takes the toll arc, and t is what it
\ pays: T where x is 1, and else 0. The greatest toll, 1,500,000, stands for each payment. No toll earns more than 1,900,001, but
\ `glpsol --lp bench/one-toll.lp -o /dev/stdout` calls 2,800,001 optimal, with a toll of 2 that the first commodity does not pay in full.
Maximize
 earned: 1000000 t_p + 900000 t_q + t_o
Subject To
 below_p: t_p - T <= 0
 below_q: t_q - T <= 0
 below_o: t_o - T <= 0
 use_p: t_p - 1500000 x_p <= 0
 use_q: t_q - 1500000 x_q <= 0
 use_o: t_o - 1500000 x_o <= 0
 link_p: T - t_p + 1500000 x_p <= 1500000
 link_q: T - t_q + 1500000 x_q <= 1500000
 link_o: T - t_o + 1500000 x_o <= 1500000
\ no more than the toll-free way costs
 free_p: t_p - x_p <= 0
 free_q: t_q - 2 x_q <= 0
 free_o: t_o - 1500000 x_o <= 0
\ no more than the toll arc costs
 toll_p: t_p - x_p - T <= -1
 toll_q: t_q - 2 x_q - T <= -2
 toll_o: t_o - 1500000 x_o - T <= -1500000
Bounds
 T <= 1500000
Binaries
 x_p x_q x_o
End
