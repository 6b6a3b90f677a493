"""Writes a script of about so many bytes to a file: functions with statements and expressions of each kind."""
import sys

PREAMBLE = r"""var $fs=require("fs");
function $write(s){var b=Buffer.from(s,"latin1"),i=0;while(i<b.length){i+=$fs.writeSync(1,b,i);}}
function $pick(k){return Math.floor(Math.random()*k);}
function $end(c,t){var b=Buffer.from(t,"latin1"),i=0;while(i<b.length){i+=$fs.writeSync(2,b,i);}process.exit(c);}
"""

# The layout is that of printed scripts.
FUNCTION = r"""function $f%(n)d($a, $b, $frame){
  var $i = 0;
  var $sum = [0, 1, $a, "text \x0a of %(n)d"];
  $outer:while($i < $a.length && !($b === null)){
    $sum[$i] = $sum[$i] + $a[$i] * %(n)d - ($b[$i + 1] | 0) % 7 >>> 2;
    if($sum[$i] >= 9007199254740992){
      break $outer;
    }else if($frame[0] === $i || $frame[1] !== -1){
      $sum.push($f%(n)d($a, $b, [1, 2, $sum[0], Object.create(null)]));
    }else{
      $frame["$k%(n)d"] = $i & 255 ^ 3;
      delete $frame["$k%(n)d"];
    }
    $i = $i + 1;
  }
  switch($frame[0]){
    case 0:
    $write(String($i) + "\x0a" + String.fromCharCode(65));
    case 1:
    $frame[0] = $b ? $a.charCodeAt($i) : "abc".substring(0, 1).length;
    continue_%(n)d
    default:
    return $sum;
  }
  try{
    throw"failed";
  }catch($catch){
    $write($catch);
  }
  return $sum.pop();
}
""".replace("    continue_%(n)d\n", "")


def main():
    size, n = int(sys.argv[1]), 0
    with open(sys.argv[2], "w") as out:
        written = out.write(PREAMBLE)
        while written < size:
            written += out.write(FUNCTION.replace("%(n)d", str(n)))
            n += 1
        out.write("function $main(){\n}\n$main();\n")


main()
