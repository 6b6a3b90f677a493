function $line($n){
  var $text = "";
  var $i = 0;
  while($i < 40){
    $text = $text + String.fromCharCode(97 + ($n + $i) % 26);
    if($i % 8 === 7){
      $text = $text + " " + String($n + $i);
    }
    $i = $i + 1;
  }
  return $text;
}
function $start(){
  var $sum = 0;
  var $n = 0;
  while($n < 25000){
    var $text = $line($n);
    var $i = 0;
    while($i < $text.length){
      $sum = $sum * 5 + $text.charCodeAt($i) | 0;
      $i = $i + 4;
    }
    $sum = $sum + $text.substring(3, 20).length | 0;
    $n = $n + 1;
  }
  $write(String($sum));
}
$start();
