MODULE Samples;  (* Texts to work on. *)

IMPORT Texts;

VAR
  gcd-, faulty-: Texts.Text;

BEGIN
  gcd := Texts.New();
  gcd.Add('MODULE gcd ; IMPORT Out ;   (* Written in a hurry. *)');
  gcd.Add('CONST max*=6*7;small = -max DIV 2;');
  gcd.Add('TYPE Pair=RECORD a ,b:LONGINT END;  List*=POINTER TO Node;');
  gcd.Add('Node*=RECORD(Pair)next-:List;more*:ARRAY 3 OF CHAR END; Test=PROCEDURE(a:LONGINT):BOOLEAN;');
  gcd.Add('VAR first: List; count,steps :LONGINT ;');
  gcd.Add('PROCEDURE Gcd*(a,b:LONGINT):LONGINT;');
  gcd.Add('VAR t:LONGINT;BEGIN WHILE b#0 DO t:=a MOD b;a:=b;b:=t;INC(steps) END;RETURN a END Gcd;');
  gcd.Add('PROCEDURE^Show(VAR p:Pair);');
  gcd.Add('(* Adds a pair (* in front *)');
  gcd.Add('   of the others. *)');
  gcd.Add('PROCEDURE Add(a,b:LONGINT);VAR l:List;BEGIN');
  gcd.Add('NEW(l);l.a:=a;l.b:=b;l.next:=first; (* now *) first:=l;INC(count) END Add;');
  gcd.Add('PROCEDURE Show(VAR p:Pair);BEGIN Out.Int(p.a,5);Out.Char(",");Out.Int(p.b,5);');
  gcd.Add('CASE Gcd(p.a,p.b)OF 1:Out.String(" prime")|2..9,11:IF p.a<p.b THEN');
  gcd.Add('Out.String(" small")ELSIF p.a=p.b THEN Out.String(" same")ELSE Out.Char(21X)END');
  gcd.Add('ELSE Out.String(" large");Out.Int(-Gcd(p.a, p.b),4)END;Out.Ln END Show;');
  gcd.Add('PROCEDURE All*;VAR l:List;BEGIN l:=first;REPEAT Show(l^);l:=l.next');
  gcd.Add('UNTIL(l=NIL)OR~(count>0)END All;');
  gcd.Add('BEGIN IF(Gcd(12,18)=6)&(Gcd(35,64)=1)&(Gcd(7,7)=7)&(Gcd(1000,15)=5)&(steps>0)THEN steps:=0 END;');
  gcd.Add('count:=0;Add(12,18);Add(35,64);Add( 7,7 ) END gcd.');
  faulty := Texts.New();
  faulty.Add('x := 1.5 + 1..5 + 0FFH + 0AX + 5DO');
  faulty.Add('y := "it has no end; z := a $ b');
  faulty.Add('IF a<=b THEN c := a!b END');
  faulty.Add('(* nor has (* this *) one')
END Samples.
