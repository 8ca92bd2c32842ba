--  A Delay longer than 16 bits is refused by the compiler: the gate compiles this with TICKS 65535, and tries it with 65536.

with Dispatcher; use Dispatcher;

procedure Wait_For (S : in out State; Result : out Answer; Change : out Report) is
begin
   Delay_For (S, $TICKS, Result, Change);
end Wait_For;
